/* Runs an image at as many places as MPI has ranks. Each rank holds one place and nothing else, and the frames between them are
 * messages of MPI. When the run has ended, rank 0 prints the lines of all places, as `x10p run IMAGE --places N` prints them.
 *
 *     mpicc -std=c99 x10p-mpi.c -IDIR/include DIR/lib/libburjeeg.a -o x10p-mpi
 *     mpirun -n N ./x10p-mpi IMAGE
 *
 * Rank 0 reads the image and gives its bytes to the others, so that all have the same ones; each verifies them. A place that
 * stops, or a frame that is refused, ends all ranks. The status is that of the program x10p; steps have no limit.
 */
#include <burjeeg.h>
#include <limits.h>
#include <mpi.h>
#include <stdio.h>
#include <stdlib.h>

/* the most messages that a turn takes in, and the most steps that it makes */
#define MESSAGES 16
#define STEPS 64

/* a run has at most so many places */
#define PLACES 64

/* what a message is: a frame; a line; word that the run, or a rank's lines, have ended; word that it is a rank's turn to print */
enum { FRAME, LINE, ENDED, TURN };

/* the statuses of x10p for what the library doesn't tell */
enum { REFUSED = 1, STOPPED = 2, NO_FILE = 4 };

/* A frame that was given to MPI. Its bytes stay until the request is done. */
typedef struct parcel {
    struct parcel *next;
    MPI_Request request;
    size_t room;
    uint8_t bytes[];
} parcel;

static int rank, ranks;
static burjeeg_module module = BURJEEG_SHUT;
static burjeeg_place place = BURJEEG_SHUT;
static burjeeg_fault fault;

/* the image, bytes that came in, or a line */
static uint8_t *bytes;
static size_t room;

/* the parcels under way, the oldest first, and one that is free */
static parcel *oldest, *latest, *spare;

/* how many frames were sent to each rank, and came from each */
static uint64_t sent[PLACES], came[PLACES];

/* where the search for the next key begins, and whether something has moved or come in since it last began at 0 */
static size_t next;
static int moved = 1;

/* ---- Faults and memory */

/* Tells a fault as x10p tells it. */
static void tell_fault(void)
{
    uint8_t line[256];
    size_t length;
    if (burjeeg_fault_line(&fault, line, sizeof line, &length) == BURJEEG_DONE)
        fwrite(line, 1, length, stderr);
    fflush(stderr);
}

/* Ends all ranks. */
static void give_up(int status, const char *why)
{
    fprintf(stderr, "x10p-mpi: place %d: %s\n", rank, why);
    fflush(stderr);
    MPI_Abort(MPI_COMM_WORLD, status);
    exit(status);
}

static void stop(void)
{
    tell_fault();
    give_up(STOPPED, "the place has stopped");
}

static void *memory(void *old, size_t length)
{
    void *found = realloc(old, length);
    if (!found)
        give_up(STOPPED, "memory was refused");
    return found;
}

/* Makes room for so many bytes. */
static void make_room(size_t length)
{
    if (length <= room)
        return;
    bytes = memory(bytes, length);
    room = length;
}

/* Makes the spare parcel anew, with room for so many bytes. */
static void make_spare(size_t length)
{
    free(spare);
    spare = memory(NULL, sizeof *spare + length);
    spare->room = length;
}

/* ---- Messages */

/* Receives a message that was found, and answers its length. */
static size_t receive(const MPI_Status *found)
{
    int length;
    MPI_Get_count(found, MPI_BYTE, &length);
    make_room((size_t)length);
    MPI_Recv(bytes, length, MPI_BYTE, found->MPI_SOURCE, found->MPI_TAG, MPI_COMM_WORLD, MPI_STATUS_IGNORE);
    if (found->MPI_TAG == FRAME)
        came[found->MPI_SOURCE]++;
    return (size_t)length;
}

/* Sends a message that has no bytes. */
static void send_word(int to, int what)
{
    MPI_Send(NULL, 0, MPI_BYTE, to, what, MPI_COMM_WORLD);
}

/* Takes in a message that was found. Whether the run goes on. */
static int take_in(const MPI_Status *found)
{
    char why[80];
    size_t length = receive(found);
    if (found->MPI_TAG == ENDED)
        return 0;
    switch (burjeeg_place_receive(&place, bytes, length, &fault)) {
    case BURJEEG_DONE: break;
    case BURJEEG_REFUSED:
        snprintf(why, sizeof why, "a frame from place %d is refused, fault %u", found->MPI_SOURCE, (unsigned)fault.kind);
        give_up(REFUSED, why);
        break;
    default: stop();
    }
    return 1;
}

/* Gives back the parcels that have left, from the oldest on to the first that hasn't; the last of them becomes the spare one. */
static void clear_parcels(void)
{
    while (oldest) {
        int has_left;
        MPI_Test(&oldest->request, &has_left, MPI_STATUS_IGNORE);
        if (!has_left)
            return;
        free(spare);
        spare = oldest;
        oldest = oldest->next;
    }
}

/* Sends the front of the spare parcel. MPI_Send might wait for a rank that itself waits for this one; MPI_Isend doesn't. */
static void send_spare(int to, size_t length)
{
    if (length > INT_MAX)
        give_up(STOPPED, "a frame is too long for a message");
    MPI_Isend(spare->bytes, (int)length, MPI_BYTE, to, FRAME, MPI_COMM_WORLD, &spare->request);
    sent[to]++;
    spare->next = NULL;
    if (oldest)
        latest->next = spare;
    else
        oldest = spare;
    latest = spare;
    spare = NULL;
    clear_parcels();
    if (!spare)
        make_spare(256);
}

/* Sends what the last step put out. */
static void send_frames(void)
{
    uint16_t to;
    size_t length;
    for (size_t number = 0;; number++) {
        uint32_t status = burjeeg_place_sent(&place, number, &to, spare->bytes, spare->room, &length);
        if (status == BURJEEG_SMALL) {
            make_spare(length);
            status = burjeeg_place_sent(&place, number, &to, spare->bytes, spare->room, &length);
        }
        if (status != BURJEEG_DONE)
            return;
        send_spare(to, length);
    }
}

/* ---- The beginning */

/* Reads a file whole; 0 where it can't be read. */
static int read_file(const char *name, size_t *length)
{
    FILE *file = name ? fopen(name, "rb") : NULL;
    size_t more = 1;
    *length = 0;
    while (file && more && *length < INT_MAX / 2) {
        make_room(2 * *length + 256);
        more = fread(bytes + *length, 1, room - *length, file);
        *length += more;
    }
    int is_read = file && !more && !ferror(file);
    if (file)
        fclose(file);
    return is_read;
}

/* Opens the module of an image, and this rank's place. The status of x10p. */
static int open_place(size_t length)
{
    uint32_t status = burjeeg_module_new(bytes, length, &module, &fault);
    if (status == BURJEEG_DONE) {
        status = burjeeg_place_new(&module, (uint16_t)rank, (uint16_t)(ranks > PLACES ? 0 : ranks), &place);
        fault.kind = status == BURJEEG_REFUSED ? BURJEEG_PLACES : BURJEEG_MEMORY;
    }
    if (status != BURJEEG_DONE)
        tell_fault();
    return (int)status;
}

/* Opens place 0 with the image in a file. The status of x10p. */
static int open_first(const char *name, size_t *length)
{
    if (read_file(name, length))
        return open_place(*length);
    fault.kind = BURJEEG_FILE;
    tell_fault();
    return NO_FILE;
}

/* Opens all places. Rank 0 goes first, and tells the others the status and the image. */
static int open_all(const char *name)
{
    size_t length;
    int word[2] = {0, 0};
    if (rank == 0) {
        word[0] = open_first(name, &length);
        word[1] = (int)length;
    }
    MPI_Bcast(word, 2, MPI_INT, 0, MPI_COMM_WORLD);
    if (word[0])
        return word[0];
    make_room((size_t)word[1]);
    MPI_Bcast(bytes, word[1], MPI_BYTE, 0, MPI_COMM_WORLD);
    if (rank && open_place((size_t)word[1]))
        give_up(STOPPED, "the place isn't opened");
    make_spare(256);
    return 0;
}

/* ---- The run */

/* Makes steps of the activities by rising keys, from the last one on and round. Whether the place can go on: not so where no
 * activity has moved in a whole round. */
static int make_steps(void)
{
    for (int steps = 0; steps < STEPS;) {
        size_t key;
        if (burjeeg_place_next_key(&place, next, &key) != BURJEEG_DONE) {
            if (!moved)
                return 0;
            moved = 0;
            next = 0;
            continue;
        }
        next = key + 1;
        switch (burjeeg_place_step(&place, key, &fault)) {
        case BURJEEG_DONE:
            moved = 1;
            steps++;
            send_frames();
            break;
        case BURJEEG_NOTHING: break;
        default: stop();
        }
    }
    return 1;
}

/* Takes in messages. Where the place can't go on, waits for the first one. Whether the run goes on. */
static int take_messages(int can_go_on)
{
    for (int number = 0; number < MESSAGES; number++) {
        MPI_Status found;
        int is_there = 1;
        if (can_go_on)
            MPI_Iprobe(MPI_ANY_SOURCE, MPI_ANY_TAG, MPI_COMM_WORLD, &is_there, &found);
        else
            MPI_Probe(MPI_ANY_SOURCE, MPI_ANY_TAG, MPI_COMM_WORLD, &found);
        if (!is_there)
            return 1;
        if (!take_in(&found))
            return 0;
        can_go_on = 1;
        moved = 1;
    }
    return 1;
}

/* Turn after turn, until place 0 finds that the run has ended, and tells the others. */
static void run(void)
{
    int can_go_on = 1;
    while (take_messages(can_go_on)) {
        can_go_on = make_steps();
        if (burjeeg_place_closed(&place) != BURJEEG_DONE)
            continue;
        for (int other = 1; other < ranks; other++)
            send_word(other, ENDED);
        return;
    }
}

/* ---- The end */

/* Receives the frames that are still under way when the run has ended, and drops them: they are reports, which tell nothing new.
 * Afterwards every parcel has left. */
static void drop_late_frames(void)
{
    uint64_t due[PLACES];
    MPI_Alltoall(sent, 1, MPI_UINT64_T, due, 1, MPI_UINT64_T, MPI_COMM_WORLD);
    for (int other = 0; other < ranks; other++) {
        while (came[other] < due[other]) {
            MPI_Status found;
            MPI_Probe(other, FRAME, MPI_COMM_WORLD, &found);
            receive(&found);
        }
    }
    for (parcel *it = oldest; it; it = it->next)
        MPI_Wait(&it->request, MPI_STATUS_IGNORE);
    clear_parcels();
    free(spare);
}

/* Finds a line of this place; 0 where it has no more. */
static int find_line(size_t number, size_t *length)
{
    uint32_t status = burjeeg_place_line(&place, number, bytes, room, length);
    if (status == BURJEEG_SMALL) {
        make_room(*length);
        status = burjeeg_place_line(&place, number, bytes, room, length);
    }
    if (status == BURJEEG_STOPPED)
        give_up(STOPPED, "memory was refused");
    return status == BURJEEG_DONE;
}

static void print_line(int from, size_t length)
{
    printf("%d: ", from);
    fwrite(bytes, 1, length, stdout);
    putchar('\n');
}

/* Prints the lines that another rank sends, once it is told that it may. */
static void print_lines_of(int other)
{
    MPI_Status found;
    send_word(other, TURN);
    for (;;) {
        MPI_Probe(other, MPI_ANY_TAG, MPI_COMM_WORLD, &found);
        size_t length = receive(&found);
        if (found.MPI_TAG == ENDED)
            return;
        print_line(other, length);
    }
}

/* Rank 0 prints its own lines, and then those of each other. The status of x10p. */
static int print_lines(void)
{
    size_t length;
    for (size_t number = 0; find_line(number, &length); number++)
        print_line(0, length);
    for (int other = 1; other < ranks; other++)
        print_lines_of(other);
    if (!fflush(stdout) && !ferror(stdout))
        return 0;
    fault.kind = BURJEEG_FILE;
    tell_fault();
    return NO_FILE;
}

/* Sends the lines of this place to rank 0, when it is its turn. */
static void send_lines(void)
{
    size_t length;
    MPI_Recv(NULL, 0, MPI_BYTE, 0, TURN, MPI_COMM_WORLD, MPI_STATUS_IGNORE);
    for (size_t number = 0; find_line(number, &length); number++)
        MPI_Send(bytes, (int)length, MPI_BYTE, 0, LINE, MPI_COMM_WORLD);
    send_word(0, ENDED);
}

int main(int count, char **words)
{
    MPI_Init(&count, &words);
    MPI_Comm_size(MPI_COMM_WORLD, &ranks);
    MPI_Comm_rank(MPI_COMM_WORLD, &rank);
    int status = open_all(count > 1 ? words[1] : NULL);
    if (!status) {
        run();
        drop_late_frames();
        if (rank)
            send_lines();
        else
            status = print_lines();
        burjeeg_place_free(&place);
    }
    free(bytes);
    MPI_Finalize();
    return status;
}

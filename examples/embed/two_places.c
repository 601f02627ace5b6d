/* Runs an image at two places, each in a process of its own: the frames between them go over a pair of sockets. When place 0
 * knows that the run has ended, each prints its lines, as `x10p run IMAGE --places 2` prints them.
 *
 *     cc -std=c99 two_places.c -IDIR/include DIR/lib/libburjeeg.a -o two_places
 *     ./two_places IMAGE
 *
 * A message between the processes is 4 bytes of length, the lowest first, and then a frame. A length of 0 says that the run has
 * ended.
 */
#define _POSIX_C_SOURCE 200809L
#include <burjeeg.h>
#include <poll.h>
#include <stdio.h>
#include <stdlib.h>
#include <string.h>
#include <sys/socket.h>
#include <sys/wait.h>
#include <unistd.h>

/* the most bytes of a frame and of a line that this program carries */
#define ROOM (1 << 20)

static burjeeg_module module = BURJEEG_SHUT;
static burjeeg_place place = BURJEEG_SHUT;
static burjeeg_fault fault;
static uint8_t bytes[ROOM];

static void give_up(const char *why)
{
    fprintf(stderr, "two_places: %s, fault %u\n", why, (unsigned)fault.kind);
    exit(1);
}

static void write_all(int line, const uint8_t *from, size_t length)
{
    while (length) {
        ssize_t done = write(line, from, length);
        if (done <= 0)
            give_up("the other place is gone");
        from += done;
        length -= (size_t)done;
    }
}

static void read_all(int line, uint8_t *to, size_t length)
{
    while (length) {
        ssize_t done = read(line, to, length);
        if (done <= 0)
            give_up("the other place is gone");
        to += done;
        length -= (size_t)done;
    }
}

static void send_message(int line, size_t length)
{
    uint8_t head[4] = {(uint8_t)length, (uint8_t)(length >> 8), (uint8_t)(length >> 16), (uint8_t)(length >> 24)};
    write_all(line, head, sizeof head);
    write_all(line, bytes, length);
}

/* Takes in a message from the other place; 0 where it says that the run has ended. */
static int receive_message(int line)
{
    uint8_t head[4];
    read_all(line, head, sizeof head);
    size_t length = head[0] | (size_t)head[1] << 8 | (size_t)head[2] << 16 | (size_t)head[3] << 24;
    if (length == 0)
        return 0;
    if (length > sizeof bytes)
        give_up("a frame is too long");
    read_all(line, bytes, length);
    if (burjeeg_place_receive(&place, bytes, length, &fault) != BURJEEG_DONE)
        give_up("a frame was refused");
    return 1;
}

/* Sends what the last step put out. */
static void send_frames(int line)
{
    uint16_t to;
    size_t needed;
    for (size_t number = 0; number < 2; number++) {
        uint32_t status = burjeeg_place_sent(&place, number, &to, bytes, sizeof bytes, &needed);
        if (status == BURJEEG_NOTHING)
            return;
        if (status != BURJEEG_DONE)
            give_up("a frame is too long");
        send_message(line, needed);
    }
}

/* A step of each activity; whether one moved. */
static int make_round(int line)
{
    int moved = 0;
    size_t key = 0;
    while (burjeeg_place_next_key(&place, key, &key) == BURJEEG_DONE) {
        switch (burjeeg_place_step(&place, key, &fault)) {
        case BURJEEG_DONE:
            moved = 1;
            send_frames(line);
            break;
        case BURJEEG_NOTHING: break;
        default: give_up("the place has stopped");
        }
        key++;
    }
    return moved;
}

/* Whether a message is there; where the place is idle, waits until one is. */
static int is_message(int line, int idle)
{
    struct pollfd end = {line, POLLIN, 0};
    return poll(&end, 1, idle ? -1 : 0) > 0;
}

static void run(int line)
{
    int moved = 1;
    for (;;) {
        moved = make_round(line);
        if (burjeeg_place_closed(&place) == BURJEEG_DONE) {
            send_message(line, 0);
            return;
        }
        while (is_message(line, !moved)) {
            if (!receive_message(line))
                return;
            moved = 1;
        }
    }
}

static void print_lines(int id)
{
    size_t needed;
    for (size_t number = 0; burjeeg_place_line(&place, number, bytes, sizeof bytes, &needed) == BURJEEG_DONE; number++)
        printf("%d: %.*s\n", id, (int)needed, (char *)bytes);
    fflush(stdout);
}

static void run_place(uint16_t id, int line)
{
    if (burjeeg_place_new(&module, id, 2, &place) != BURJEEG_DONE)
        give_up("the place isn't opened");
    run(line);
}

int main(int count, char **words)
{
    FILE *file = count > 1 ? fopen(words[1], "rb") : NULL;
    if (!file) {
        fputs("two_places: give the file of an image\n", stderr);
        return 4;
    }
    size_t length = fread(bytes, 1, sizeof bytes, file);
    fclose(file);
    if (burjeeg_module_new(bytes, length, &module, &fault) != BURJEEG_DONE)
        give_up("the image is refused");

    /* the second process begins before the first has made a place, so that no memory of a place is shared by a fork */
    int ends[2];
    if (socketpair(AF_UNIX, SOCK_STREAM, 0, ends) != 0)
        give_up("no sockets");
    pid_t other = fork();
    if (other < 0)
        give_up("no process");
    int id = other == 0;
    close(ends[!id]);
    run_place((uint16_t)id, ends[id]);

    /* place 0 prints first, and place 1 when place 0 has closed its end */
    if (id == 0)
        print_lines(0);
    shutdown(ends[id], SHUT_WR);
    while (id == 1 && read(ends[1], bytes, 1) > 0)
        ;
    if (id == 1)
        print_lines(1);
    burjeeg_place_free(&place);
    int status = 0;
    return id == 0 && (waitpid(other, &status, 0) != other || status != 0);
}

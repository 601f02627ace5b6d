/* The calls of burjeeg.h about handles: handles that are null, closed, in use or of another sort, a run of two places whose
 * frames this program carries, a world, bytes that are no frames, buffers that are too small, and each request for memory
 * refused in turn: library_handles IMAGE REFUSED, two files; the first is run at two places. It prints what is wrong. Linked as
 * library_calls is. */
#include <burjeeg.h>
#include <stdio.h>
#include <stdlib.h>
#include <string.h>

static long taken, requests, refused;

void *__real_malloc(size_t size);
void *__real_realloc(void *block, size_t size);
void __real_free(void *block);

static int is_refused(void)
{
    return ++requests == refused;
}

void *__wrap_malloc(size_t size)
{
    void *block = is_refused() ? NULL : __real_malloc(size);
    taken += block != NULL;
    return block;
}

void *__wrap_realloc(void *block, size_t size)
{
    void *larger = is_refused() ? NULL : __real_realloc(block, size);
    taken += block == NULL && larger != NULL;
    return larger;
}

void __wrap_free(void *block)
{
    taken -= block != NULL;
    __real_free(block);
}

static int wrong;

#define SAYS(holds) \
    do { \
        if (!(holds)) { \
            printf("line %d: %s\n", __LINE__, #holds); \
            wrong = 1; \
        } \
    } while (0)

typedef struct bytes {
    uint8_t at[1 << 12];
    size_t length;
    uint16_t to;
} bytes;

enum { PLACES = 2, MOST = 64 };

static bytes image, bad, queue[MOST];
static size_t put, got;
static uint8_t buffer[1 << 12];
static size_t needed, key;
static uint16_t to;
static burjeeg_fault fault;
static burjeeg_module module = BURJEEG_SHUT;
static burjeeg_place places[PLACES] = {BURJEEG_SHUT, BURJEEG_SHUT};
static burjeeg_world world = BURJEEG_SHUT;
static uint64_t flight;

static void read_file(const char *name, bytes *into)
{
    FILE *file = fopen(name, "rb");
    into->length = file ? fread(into->at, 1, sizeof into->at, file) : 0;
    if (file)
        fclose(file);
    SAYS(into->length > 0);
}

static void nulls(void)
{
    burjeeg_place shut = BURJEEG_SHUT;
    SAYS(burjeeg_module_new(image.at, image.length, NULL, &fault) == BURJEEG_NULL);
    SAYS(burjeeg_module_new(image.at, image.length, &module, NULL) == BURJEEG_NULL);
    SAYS(burjeeg_place_new(NULL, 0, PLACES, &shut) == BURJEEG_NULL);
    SAYS(burjeeg_place_new(&module, 0, PLACES, NULL) == BURJEEG_NULL);
    SAYS(burjeeg_place_step(NULL, 0, &fault) == BURJEEG_NULL);
    SAYS(burjeeg_place_step(&shut, 0, NULL) == BURJEEG_NULL);
    SAYS(burjeeg_place_receive(NULL, image.at, 4, &fault) == BURJEEG_NULL);
    SAYS(burjeeg_place_receive(&shut, image.at, 4, NULL) == BURJEEG_NULL);
    SAYS(burjeeg_place_sent(NULL, 0, &to, buffer, 9, &needed) == BURJEEG_NULL);
    SAYS(burjeeg_place_sent(&shut, 0, NULL, buffer, 9, &needed) == BURJEEG_NULL);
    SAYS(burjeeg_place_sent(&shut, 0, &to, buffer, 9, NULL) == BURJEEG_NULL);
    SAYS(burjeeg_place_line(NULL, 0, buffer, 9, &needed) == BURJEEG_NULL);
    SAYS(burjeeg_place_line(&shut, 0, buffer, 9, NULL) == BURJEEG_NULL);
    SAYS(burjeeg_place_next_key(NULL, 0, &key) == BURJEEG_NULL);
    SAYS(burjeeg_place_next_key(&shut, 0, NULL) == BURJEEG_NULL);
    SAYS(burjeeg_place_closed(NULL) == BURJEEG_NULL);
    burjeeg_module_free(NULL);
    burjeeg_place_free(NULL);
    burjeeg_world none = BURJEEG_SHUT;
    SAYS(burjeeg_world_new(NULL, PLACES, &none) == BURJEEG_NULL);
    SAYS(burjeeg_world_new(&module, PLACES, NULL) == BURJEEG_NULL);
    SAYS(burjeeg_world_step(NULL, 0, 0, &fault) == BURJEEG_NULL);
    SAYS(burjeeg_world_step(&none, 0, 0, NULL) == BURJEEG_NULL);
    SAYS(burjeeg_world_deliver(NULL, 0, &fault) == BURJEEG_NULL);
    SAYS(burjeeg_world_deliver(&none, 0, NULL) == BURJEEG_NULL);
    SAYS(burjeeg_world_next_key(NULL, 0, 0, &key) == BURJEEG_NULL);
    SAYS(burjeeg_world_next_key(&none, 0, 0, NULL) == BURJEEG_NULL);
    SAYS(burjeeg_world_next_frame(NULL, 0, 0, &flight) == BURJEEG_NULL);
    SAYS(burjeeg_world_next_frame(&none, 0, 0, NULL) == BURJEEG_NULL);
    SAYS(burjeeg_world_frame(NULL, 0, &to, buffer, 9, &needed) == BURJEEG_NULL);
    SAYS(burjeeg_world_frame(&none, 0, NULL, buffer, 9, &needed) == BURJEEG_NULL);
    SAYS(burjeeg_world_frame(&none, 0, &to, buffer, 9, NULL) == BURJEEG_NULL);
    SAYS(burjeeg_world_line(NULL, 0, 0, buffer, 9, &needed) == BURJEEG_NULL);
    SAYS(burjeeg_world_line(&none, 0, 0, buffer, 9, NULL) == BURJEEG_NULL);
    SAYS(burjeeg_world_closed(NULL) == BURJEEG_NULL);
    burjeeg_world_free(NULL);
}

/* Each call says that there is no place behind a handle. */
static void lacks_place(burjeeg_place *place)
{
    SAYS(burjeeg_place_step(place, 0, &fault) == BURJEEG_CLOSED);
    SAYS(burjeeg_place_receive(place, image.at, image.length, &fault) == BURJEEG_CLOSED);
    SAYS(burjeeg_place_sent(place, 0, &to, buffer, sizeof buffer, &needed) == BURJEEG_CLOSED);
    SAYS(burjeeg_place_line(place, 0, buffer, sizeof buffer, &needed) == BURJEEG_CLOSED);
    SAYS(burjeeg_place_next_key(place, 0, &key) == BURJEEG_CLOSED);
    SAYS(burjeeg_place_closed(place) == BURJEEG_CLOSED);
}

/* Each call says that there is no world behind a handle. */
static void lacks_world(burjeeg_world *it)
{
    SAYS(burjeeg_world_step(it, 0, 0, &fault) == BURJEEG_CLOSED);
    SAYS(burjeeg_world_deliver(it, 0, &fault) == BURJEEG_CLOSED);
    SAYS(burjeeg_world_next_key(it, 0, 0, &key) == BURJEEG_CLOSED);
    SAYS(burjeeg_world_next_frame(it, 0, 0, &flight) == BURJEEG_CLOSED);
    SAYS(burjeeg_world_frame(it, 0, &to, buffer, sizeof buffer, &needed) == BURJEEG_CLOSED);
    SAYS(burjeeg_world_line(it, 0, 0, buffer, sizeof buffer, &needed) == BURJEEG_CLOSED);
    SAYS(burjeeg_world_closed(it) == BURJEEG_CLOSED);
}

/* Handles that are closed, never opened or of another sort; handles that are opened in vain. */
static void closed_ones(void)
{
    burjeeg_place shut = BURJEEG_SHUT, odd;
    burjeeg_module none = BURJEEG_SHUT;
    memset(&odd, 0xee, sizeof odd);
    lacks_place(&shut);
    lacks_place(&odd);
    burjeeg_module same = module;
    lacks_place((burjeeg_place *)&module);
    SAYS(same.mark == module.mark && same.inside == module.inside);
    burjeeg_world unmade = BURJEEG_SHUT;
    lacks_world(&unmade);
    lacks_world((burjeeg_world *)&module);
    lacks_world((burjeeg_world *)&places[0]);
    SAYS(burjeeg_world_new((burjeeg_module *)&places[0], PLACES, &unmade) == BURJEEG_CLOSED);
    SAYS(burjeeg_world_new(&module, 0, &unmade) == BURJEEG_REFUSED);
    SAYS(burjeeg_world_new(&module, 65, &unmade) == BURJEEG_REFUSED);
    SAYS(burjeeg_world_new(&module, PLACES, (burjeeg_world *)&places[0]) == BURJEEG_IN_USE);
    SAYS(burjeeg_world_new(&module, PLACES, &unmade) == BURJEEG_DONE);
    lacks_place((burjeeg_place *)&unmade);
    burjeeg_world_free(&unmade);
    burjeeg_place_free(&shut);
    burjeeg_place_free(&odd);
    SAYS(burjeeg_place_new(&none, 0, PLACES, &shut) == BURJEEG_CLOSED);
    SAYS(burjeeg_place_new((burjeeg_module *)&places[0], 0, PLACES, &shut) == BURJEEG_CLOSED);
    SAYS(burjeeg_place_new(&module, PLACES, PLACES, &shut) == BURJEEG_REFUSED);
    SAYS(burjeeg_place_new(&module, 0, 0, &shut) == BURJEEG_REFUSED);
    SAYS(burjeeg_place_new(&module, 0, 65, &shut) == BURJEEG_REFUSED);
    SAYS(burjeeg_place_new(&module, 0, PLACES, &places[0]) == BURJEEG_IN_USE);
    SAYS(burjeeg_module_new(image.at, image.length, &module, &fault) == BURJEEG_IN_USE);
    long before = taken;
    SAYS(burjeeg_module_new(bad.at, bad.length, &none, &fault) == BURJEEG_REFUSED && fault.kind == BURJEEG_VERIFY_HOME);
    SAYS(burjeeg_module_new(NULL, 0, &none, &fault) == BURJEEG_REFUSED && fault.kind == BURJEEG_IMAGE_SHORT);
    SAYS(taken == before);
    lacks_place(&shut);
    lacks_place((burjeeg_place *)&none);
}

/* Bytes that are no frame are refused, also a frame with one byte changed or cut off; the place goes on as before. */
static void hostile(burjeeg_place *place)
{
    uint8_t frame[] = {2, 1, 0, 0, 0, 0, 0, 0};
    SAYS(burjeeg_place_receive(place, NULL, 0, &fault) == BURJEEG_REFUSED && fault.kind == BURJEEG_FRAME_SHORT);
    SAYS(burjeeg_place_receive(place, image.at, image.length, &fault) == BURJEEG_REFUSED && fault.kind == BURJEEG_FRAME_VERSION);
    for (int byte = 0; byte < 256; byte++) {
        frame[1] = (uint8_t)byte;
        SAYS(burjeeg_place_receive(place, frame, sizeof frame, &fault) == BURJEEG_REFUSED && fault.kind > 900);
    }
}

/* Takes the frames that a step put out, at first into a buffer without room. */
static uint32_t take_frames(burjeeg_place *place)
{
    for (size_t number = 0;; number++) {
        uint32_t status = burjeeg_place_sent(place, number, &to, buffer, 0, &needed);
        if (status == BURJEEG_NOTHING)
            return number <= 2 ? BURJEEG_DONE : BURJEEG_REFUSED;
        SAYS(status == BURJEEG_SMALL && needed > 0 && to < PLACES && put < MOST);
        bytes *frame = &queue[put++ % MOST];
        status = burjeeg_place_sent(place, number, &frame->to, frame->at, needed, &frame->length);
        SAYS(status == BURJEEG_DONE && frame->length == needed && frame->to == to);
    }
}

/* A step of each activity of a place. */
static uint32_t round_of(burjeeg_place *place)
{
    for (key = 0; burjeeg_place_next_key(place, key, &key) == BURJEEG_DONE; key++) {
        uint32_t status = burjeeg_place_step(place, key, &fault);
        if (status == BURJEEG_STOPPED)
            return status;
        SAYS(status == BURJEEG_DONE || status == BURJEEG_NOTHING);
        if (take_frames(place) != BURJEEG_DONE)
            SAYS(0);
    }
    return BURJEEG_DONE;
}

/* A run: each place in turn, and then the frames in flight, until place 0 knows that it has ended. */
static uint32_t run(int whether_hostile)
{
    put = got = 0;
    for (uint16_t id = 0; id < PLACES; id++) {
        uint32_t status = burjeeg_place_new(&module, id, PLACES, &places[id]);
        if (status != BURJEEG_DONE)
            return status;
    }
    while (burjeeg_place_closed(&places[0]) == BURJEEG_NOTHING) {
        for (int id = 0; id < PLACES; id++) {
            if (whether_hostile)
                hostile(&places[id]);
            if (round_of(&places[id]) != BURJEEG_DONE)
                return BURJEEG_STOPPED;
        }
        for (; got < put; got++) {
            bytes *frame = &queue[got % MOST];
            if (burjeeg_place_receive(&places[frame->to], frame->at, frame->length, &fault) != BURJEEG_DONE)
                return BURJEEG_STOPPED;
        }
    }
    return BURJEEG_DONE;
}

/* The lines of the run, as burjeeg_run writes them. */
static size_t lines_of(char *into)
{
    size_t length = 0;
    for (int id = 0; id < PLACES; id++) {
        for (size_t number = 0;; number++) {
            uint32_t status = burjeeg_place_line(&places[id], number, buffer, 0, &needed);
            SAYS(status == BURJEEG_SMALL || status == BURJEEG_NOTHING);
            if (status != BURJEEG_SMALL)
                break;
            SAYS(burjeeg_place_line(&places[id], number, buffer, needed, &needed) == BURJEEG_DONE);
            length += (size_t)sprintf(into + length, "%d: %.*s\n", id, (int)needed, (char *)buffer);
        }
    }
    return length;
}

static void free_places(void)
{
    for (int id = 0; id < PLACES; id++) {
        burjeeg_place_free(&places[id]);
        lacks_place(&places[id]);
    }
}

static void runs(void)
{
    static char found[1 << 12];
    static uint8_t wanted[1 << 12];
    size_t length;
    long before = taken;
    for (int whether_hostile = 0; whether_hostile < 2; whether_hostile++) {
        SAYS(run(whether_hostile) == BURJEEG_DONE);
        SAYS(burjeeg_place_closed(&places[0]) == BURJEEG_DONE);
        SAYS(burjeeg_place_closed(&places[1]) == BURJEEG_NOTHING);
        length = lines_of(found);
        SAYS(burjeeg_run(image.at, image.length, PLACES, 1000000, wanted, sizeof wanted, &needed, &fault) == BURJEEG_DONE);
        SAYS(length > 0 && length == needed && memcmp(found, wanted, length) == 0);
        free_places();
        SAYS(taken == before);
    }
}

/* A run of a world: each place in turn takes in its frames, and makes a step of each activity. */
static uint32_t run_world(void)
{
    uint32_t status = burjeeg_world_new(&module, PLACES, &world);
    while (status == BURJEEG_DONE && burjeeg_world_closed(&world) == BURJEEG_NOTHING) {
        for (uint16_t id = 0; id < PLACES; id++) {
            for (flight = 0; burjeeg_world_next_frame(&world, id, flight, &flight) == BURJEEG_DONE; flight++) {
                SAYS(burjeeg_world_frame(&world, flight, &to, buffer, 0, &needed) == BURJEEG_SMALL && to == id && needed > 0);
                SAYS(burjeeg_world_frame(&world, flight, &to, buffer, needed, &needed) == BURJEEG_DONE);
                status = burjeeg_world_deliver(&world, flight, &fault);
                if (status != BURJEEG_DONE)
                    return status;
                SAYS(burjeeg_world_frame(&world, flight, &to, buffer, sizeof buffer, &needed) == BURJEEG_NOTHING);
            }
            for (key = 0; burjeeg_world_next_key(&world, id, key, &key) == BURJEEG_DONE; key++) {
                status = burjeeg_world_step(&world, id, key, &fault);
                if (status != BURJEEG_DONE && status != BURJEEG_NOTHING)
                    return status;
                status = BURJEEG_DONE;
            }
        }
    }
    return status;
}

static void worlds(void)
{
    static char found[1 << 12];
    static uint8_t wanted[1 << 12];
    size_t length = 0;
    long before = taken;
    SAYS(run_world() == BURJEEG_DONE);
    SAYS(burjeeg_world_deliver(&world, 1000000, &fault) == BURJEEG_NOTHING);
    SAYS(burjeeg_world_step(&world, PLACES, 0, &fault) == BURJEEG_NOTHING);
    SAYS(burjeeg_world_next_key(&world, PLACES, 0, &key) == BURJEEG_NOTHING);
    SAYS(burjeeg_world_line(&world, PLACES, 0, buffer, sizeof buffer, &needed) == BURJEEG_NOTHING && needed == 0);
    for (uint16_t id = 0; id < PLACES; id++) {
        for (size_t number = 0; burjeeg_world_line(&world, id, number, buffer, 0, &needed) == BURJEEG_SMALL; number++) {
            SAYS(burjeeg_world_line(&world, id, number, buffer, needed, &needed) == BURJEEG_DONE);
            length += (size_t)sprintf(found + length, "%d: %.*s\n", id, (int)needed, (char *)buffer);
        }
    }
    SAYS(burjeeg_run(image.at, image.length, PLACES, 1000000, wanted, sizeof wanted, &needed, &fault) == BURJEEG_DONE);
    SAYS(length > 0 && length == needed && memcmp(found, wanted, length) == 0);
    burjeeg_world_free(&world);
    lacks_world(&world);
    SAYS(taken == before);
}

static void world_refusals(void)
{
    long before = taken;
    for (long which = 1; which < 100000; which++) {
        requests = 0;
        refused = which;
        uint32_t status = run_world();
        refused = 0;
        SAYS(status == BURJEEG_DONE || status == BURJEEG_STOPPED);
        if (status == BURJEEG_STOPPED && burjeeg_world_closed(&world) != BURJEEG_CLOSED) {
            SAYS(fault.kind == BURJEEG_STOP_MEMORY);
            SAYS(burjeeg_world_step(&world, 0, 0, &fault) == BURJEEG_STOPPED && fault.kind == BURJEEG_HAD_STOPPED);
        }
        burjeeg_world_free(&world);
        SAYS(taken == before);
        if (requests < which) {
            SAYS(status == BURJEEG_DONE);
            return;
        }
    }
}

/* With each request for memory refused the run says so, or comes to its end; no block of a place stays taken. */
static void refusals(void)
{
    long before = taken;
    for (long which = 1; which < 100000; which++) {
        requests = 0;
        refused = which;
        uint32_t status = run(0);
        refused = 0;
        SAYS(status == BURJEEG_DONE || status == BURJEEG_STOPPED);
        for (int id = 0; id < PLACES; id++)
            burjeeg_place_free(&places[id]);
        SAYS(taken == before);
        if (requests < which) {
            SAYS(status == BURJEEG_DONE);
            return;
        }
    }
}

/* With each request for memory refused a module is opened, or its handle stays closed and all memory is given back. */
static void module_refusals(void)
{
    long before = taken;
    for (long which = 1; which < 100000; which++) {
        burjeeg_module other = BURJEEG_SHUT;
        requests = 0;
        refused = which;
        uint32_t status = burjeeg_module_new(image.at, image.length, &other, &fault);
        refused = 0;
        if (requests < which) {
            SAYS(status == BURJEEG_DONE);
            burjeeg_module_free(&other);
            lacks_place((burjeeg_place *)&other);
            return;
        }
        SAYS(status == BURJEEG_STOPPED && fault.kind == BURJEEG_MEMORY);
        SAYS(other.mark == 0 && taken == before);
    }
}

int main(int count, char **words)
{
    if (count != 3)
        return 2;
    read_file(words[1], &image);
    read_file(words[2], &bad);
    SAYS(burjeeg_module_new(image.at, image.length, &module, &fault) == BURJEEG_DONE && fault.kind == BURJEEG_NONE);
    nulls();
    SAYS(burjeeg_place_new(&module, 0, PLACES, &places[0]) == BURJEEG_DONE);
    closed_ones();
    burjeeg_place_free(&places[0]);
    runs();
    worlds();
    refusals();
    world_refusals();
    module_refusals();
    return wrong;
}

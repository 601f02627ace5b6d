/* The calls of burjeeg.h with pointers that are null, lengths of 0, buffers that are too small, and with each request for memory
 * refused in turn: library_calls IMAGE TEXT REFUSED, three files. It prints what is wrong. Linked with --wrap=malloc, --wrap=realloc
 * and --wrap=free, which count the blocks that are taken. */
#include <burjeeg.h>
#include <stdio.h>
#include <stdlib.h>
#include <string.h>

static long taken, requests, refused;

void *__real_malloc(size_t size);
void *__real_realloc(void *block, size_t size);
void __real_free(void *block);

static int is_refused(void)
{
    return ++requests == refused;
}

void *__wrap_malloc(size_t size)
{
    void *block = is_refused() ? NULL : __real_malloc(size);
    taken += block != NULL;
    return block;
}

void *__wrap_realloc(void *block, size_t size)
{
    void *larger = is_refused() ? NULL : __real_realloc(block, size);
    taken += block == NULL && larger != NULL;
    return larger;
}

void __wrap_free(void *block)
{
    taken -= block != NULL;
    __real_free(block);
}

static int wrong;

#define SAYS(holds) \
    do { \
        if (!(holds)) { \
            printf("line %d: %s\n", __LINE__, #holds); \
            wrong = 1; \
        } \
    } while (0)

typedef struct bytes {
    uint8_t at[1 << 16];
    size_t length;
} bytes;

static bytes image, text, bad;
static uint8_t buffer[1 << 16];
static uint64_t bounds[64];
static size_t needed;
static burjeeg_fault fault;

static void read_file(const char *name, bytes *to)
{
    FILE *file = fopen(name, "rb");
    to->length = file ? fread(to->at, 1, sizeof to->at, file) : 0;
    if (file)
        fclose(file);
    SAYS(to->length > 0);
}

/* A call of each of the header: of those that write text, into so much of the buffer. */
static uint32_t call(int which, size_t room)
{
    switch (which) {
    case 0: return burjeeg_verify(image.at, image.length, &fault);
    case 1: return burjeeg_bounds(image.at, image.length, bounds, room, &needed, &fault);
    case 2: return burjeeg_list(image.at, image.length, buffer, room, &needed, &fault);
    case 3: return burjeeg_assemble(text.at, text.length, buffer, room, &needed, &fault);
    case 4: return burjeeg_check(text.at, text.length, buffer, room, &needed, &fault);
    case 5: return burjeeg_run(image.at, image.length, 0, 1000000, buffer, room, &needed, &fault);
    case 6: return burjeeg_check(bad.at, bad.length, buffer, room, &needed, &fault);
    default: return burjeeg_fault_line(&(burjeeg_fault){BURJEEG_VERIFY_HOME, 1, 2, 0}, buffer, room, &needed);
    }
}

enum { CALLS = 8, REPORT = 6 };

static size_t room_of(int which)
{
    return which == 1 ? 64 : sizeof buffer;
}

/* Each call has a status of its own where a pointer is null, and writes nothing then. */
static void nulls(void)
{
    needed = 77;
    fault.kind = 77;
    SAYS(burjeeg_verify(image.at, image.length, NULL) == BURJEEG_NULL);
    SAYS(burjeeg_bounds(image.at, image.length, bounds, 64, NULL, &fault) == BURJEEG_NULL);
    SAYS(burjeeg_bounds(image.at, image.length, bounds, 64, &needed, NULL) == BURJEEG_NULL);
    SAYS(burjeeg_list(image.at, image.length, buffer, 9, NULL, &fault) == BURJEEG_NULL);
    SAYS(burjeeg_list(image.at, image.length, buffer, 9, &needed, NULL) == BURJEEG_NULL);
    SAYS(burjeeg_assemble(text.at, text.length, buffer, 9, NULL, &fault) == BURJEEG_NULL);
    SAYS(burjeeg_assemble(text.at, text.length, buffer, 9, &needed, NULL) == BURJEEG_NULL);
    SAYS(burjeeg_check(text.at, text.length, buffer, 9, NULL, &fault) == BURJEEG_NULL);
    SAYS(burjeeg_check(text.at, text.length, buffer, 9, &needed, NULL) == BURJEEG_NULL);
    SAYS(burjeeg_run(image.at, image.length, 0, 9, buffer, 9, NULL, &fault) == BURJEEG_NULL);
    SAYS(burjeeg_run(image.at, image.length, 0, 9, buffer, 9, &needed, NULL) == BURJEEG_NULL);
    SAYS(burjeeg_fault_line(NULL, buffer, 9, &needed) == BURJEEG_NULL);
    SAYS(burjeeg_fault_line(&fault, buffer, 9, NULL) == BURJEEG_NULL);
    SAYS(needed == 77 && fault.kind == 77);
}

/* No bytes are no image; a text of no bytes has no `entry`. */
static void empties(void)
{
    SAYS(burjeeg_verify(NULL, 0, &fault) == BURJEEG_REFUSED && fault.kind == BURJEEG_IMAGE_SHORT);
    SAYS(burjeeg_run(image.at, 0, 0, 9, buffer, 9, &needed, &fault) == BURJEEG_REFUSED && fault.kind == BURJEEG_IMAGE_SHORT);
    SAYS(burjeeg_list(image.at, 0, NULL, 0, &needed, &fault) == BURJEEG_REFUSED && needed == 0);
    SAYS(burjeeg_assemble(NULL, 0, NULL, 0, &needed, &fault) == BURJEEG_REFUSED && fault.kind == BURJEEG_ASM_ORDER);
    SAYS(burjeeg_check(NULL, 0, buffer, sizeof buffer, &needed, &fault) == BURJEEG_REFUSED && needed > 0);
}

/* In a buffer that is too small nothing is written, and so many bytes are needed as are written to one that isn't. */
static void smalls(void)
{
    for (int which = 1; which < CALLS; which++) {
        uint32_t status = call(which, room_of(which));
        SAYS(status == (which == REPORT ? BURJEEG_REFUSED : BURJEEG_DONE));
        size_t whole = needed;
        uint32_t kind = fault.kind;
        SAYS(whole > 0);
        memset(buffer, 0xee, sizeof buffer);
        memset(bounds, 0xee, sizeof bounds);
        SAYS(call(which, whole - 1) == BURJEEG_SMALL && needed == whole && fault.kind == kind);
        SAYS(buffer[0] == 0xee && bounds[0] == 0xeeeeeeeeeeeeeeeeU);
        SAYS(call(which, whole) == status && needed == whole);
        SAYS(which == 1 ? bounds[whole] == 0xeeeeeeeeeeeeeeeeU : buffer[whole] == 0xee);
        SAYS(which == 1 ? bounds[0] < 1000000 : buffer[0] != 0xee);
        SAYS(call(which, 0) == BURJEEG_SMALL && needed == whole);
    }
}

/* With each request for memory refused a call says so, or does what it does with memory; no block stays taken. */
static void refusals(void)
{
    static uint8_t whole[sizeof buffer];
    for (int which = 0; which < CALLS; which++) {
        uint32_t status = call(which, room_of(which));
        size_t length = needed;
        memcpy(whole, buffer, sizeof buffer);
        for (refused = 1;; refused++) {
            requests = 0;
            taken = 0;
            uint32_t found = call(which, room_of(which));
            SAYS(taken == 0);
            if (found == BURJEEG_STOPPED)
                SAYS(which == 7 || fault.kind == BURJEEG_MEMORY || fault.kind == BURJEEG_STOP_MEMORY);
            else
                SAYS(found == status && (which == 0 || needed == length) && (which < 2 || !memcmp(whole, buffer, length)));
            if (requests < refused)
                break;
        }
        SAYS(refused > 1);
        refused = 0;
    }
}

static void faults(void)
{
    static const uint8_t not_utf8[] = {'i', 'n', 't', ' ', 0xff};
    SAYS(burjeeg_assemble(not_utf8, sizeof not_utf8, buffer, 9, &needed, &fault) == BURJEEG_NO_TEXT && fault.kind == BURJEEG_FILE);
    SAYS(burjeeg_run(image.at, image.length, 65, 9, buffer, 9, &needed, &fault) == BURJEEG_REFUSED && fault.kind == BURJEEG_PLACES);
    SAYS(burjeeg_run(image.at, image.length, 0, 0, buffer, 9, &needed, &fault) == BURJEEG_STOPPED && fault.kind == BURJEEG_LIMIT);
    SAYS(burjeeg_fault_line(&(burjeeg_fault){0, 0, 0, 0}, buffer, 9, &needed) == BURJEEG_REFUSED);
    SAYS(burjeeg_fault_line(&(burjeeg_fault){BURJEEG_STOP_LIMIT, 0, 0, 12}, buffer, 9, &needed) == BURJEEG_REFUSED);
}

int main(int count, char **words)
{
    SAYS(count == 4);
    if (wrong)
        return 1;
    read_file(words[1], &image);
    read_file(words[2], &text);
    read_file(words[3], &bad);
    nulls();
    empties();
    smalls();
    refusals();
    faults();
    return wrong;
}

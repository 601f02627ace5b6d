/* burjeeg.h: the machine for programs in C and C++, and in languages that call C.
 *
 * The calls below verify, list, assemble, check and run modules of Burjeeg. The first of them keep nothing: each takes bytes
 * and leaves what it found in memory of the caller's. Those at the end are about handles: of a verified module, of a place that
 * runs it, for somebody who carries the frames between places himself, and of a world of all places. All may be called from
 * several threads at once, each with memory and handles of its own. What they need for a while they take by malloc and give
 * back by free.
 *
 * What is proved of them is proved of calls that keep to this page:
 * - A pointer with a length points to that many bytes, which nobody else writes during the call. What a call writes to overlaps
 *   with nothing else that is passed to it.
 * - No pointer is null, but one with a length or a room of 0 may be. Where the pointer to a fault, to `needed` or to `count`
 *   is, a call answers BURJEEG_NULL and does nothing, which is tested and not proved.
 * - A handle is opened by a call whose name ends in _new, and is used, copied or changed by nobody but the calls of this page.
 *   Before it is opened all of its bytes are 0. It stays on the thread that opened it. Where it is null, closed, or of another
 *   sort, a call says so and does nothing; of null that is tested and not proved.
 * - malloc, realloc and free are those of one allocator. A call isn't made from a signal handler, nor in a child that was
 *   forked from a process with several threads.
 *
 * Link with libburjeeg.a or libburjeeg.so.
 */
#ifndef BURJEEG_H
#define BURJEEG_H

#include <stddef.h>
#include <stdint.h>

#ifdef __cplusplus
extern "C" {
#endif

/* What a call answers. */
enum burjeeg_status {
    BURJEEG_DONE = 0,    /* done */
    BURJEEG_REFUSED = 1, /* it can't be done with these bytes; the fault says why */
    BURJEEG_STOPPED = 2, /* it was stopped, by want of memory, a limit or a full count; the fault says which */
    BURJEEG_NO_TEXT = 4, /* the text isn't UTF-8 */
    BURJEEG_NULL = 5,    /* a pointer is null that has no length; nothing was done or written */
    BURJEEG_SMALL = 6,   /* the buffer is too small, and as it was; `needed` tells how much is needed */
    BURJEEG_CLOSED = 7,  /* the handle is closed, or is one of another sort; nothing was done */
    BURJEEG_IN_USE = 8,  /* the handle that is to be opened is open; nothing was done */
    BURJEEG_NOTHING = 9  /* there is nothing of what was asked for */
};

/* Which fault. The names are those that the program prints. */
enum burjeeg_kind {
    BURJEEG_NONE = 0,

    /* A text spells no module: at its line `at`, counted from 1. */
    BURJEEG_ASM_WORD = 101,
    BURJEEG_ASM_NUMBER = 102,
    BURJEEG_ASM_COUNT = 103,
    BURJEEG_ASM_ORDER = 104,
    BURJEEG_ASM_LABEL = 105,
    BURJEEG_ASM_TEXT = 106,
    BURJEEG_ASM_LIMIT = 107,
    BURJEEG_ASM_ENTRY = 108,

    /* Bytes are no image; of CODE the instruction `pc` of `function`. */
    BURJEEG_IMAGE_SHORT = 201,
    BURJEEG_IMAGE_MAGIC = 202,
    BURJEEG_IMAGE_VERSION = 203,
    BURJEEG_IMAGE_COUNT = 204,
    BURJEEG_IMAGE_KIND = 205,
    BURJEEG_IMAGE_TEXT = 206,
    BURJEEG_IMAGE_TRAILING = 207,
    BURJEEG_IMAGE_RESERVED = 208,
    BURJEEG_IMAGE_ENTRY = 209,
    BURJEEG_IMAGE_CODE = 210,

    /* A function breaks a rule of structure: at its instruction `pc`. */
    BURJEEG_STRUCTURE_NESTING = 301,
    BURJEEG_STRUCTURE_JUMP = 302,
    BURJEEG_STRUCTURE_LOOP_SLOT = 303,
    BURJEEG_STRUCTURE_CALL_ORDER = 304,
    BURJEEG_STRUCTURE_ATOMIC = 305,
    BURJEEG_STRUCTURE_TOO_LARGE = 306,

    /* The verifier refuses a function: at its instruction `pc`. */
    BURJEEG_VERIFY_INDEX = 401,
    BURJEEG_VERIFY_UNSET = 402,
    BURJEEG_VERIFY_KIND = 403,
    BURJEEG_VERIFY_HOME = 404,
    BURJEEG_VERIFY_RESULT = 405,

    BURJEEG_PLACES = 501, /* the module doesn't run at so many places */

    BURJEEG_MEMORY = 601,      /* memory was refused */
    BURJEEG_STOP_MEMORY = 602, /* memory was refused to a place that ran */
    BURJEEG_STOP_LIMIT = 603,  /* a count of a place is full: that with the number `at`, from 1 to 11 */
    BURJEEG_LIMIT = 604,       /* so many events were made as were allowed */

    BURJEEG_FILE = 701, /* the text isn't UTF-8 */

    /* Bytes, such as those that came to a place, are no frame of a run of so many places. */
    BURJEEG_FRAME_SHORT = 901,
    BURJEEG_FRAME_VERSION = 902,
    BURJEEG_FRAME_TYPE = 903,
    BURJEEG_FRAME_PLACE = 904,
    BURJEEG_FRAME_TAG = 905,
    BURJEEG_FRAME_TEXT = 906,
    BURJEEG_FRAME_ORDER = 907,
    BURJEEG_FRAME_TRAILING = 908,

    /* They are a frame, but it doesn't fit the place. */
    BURJEEG_FRAME_NOT_HERE = 911, /* it is for another place */
    BURJEEG_FRAME_FUNCTION = 912, /* there is no such function, or a new activity's has a result */
    BURJEEG_FRAME_KIND = 913,     /* its values don't fit the signature, or an object its class */
    BURJEEG_FRAME_HOME = 914,     /* a global reference whose home has to be known has another one */
    BURJEEG_FRAME_REF = 915,      /* a global reference to an object here names none of its class */
    BURJEEG_FRAME_FINISH = 916,   /* there is no such finish, or it is closed */
    BURJEEG_FRAME_SEGMENT = 917,  /* no activity waits for it */

    BURJEEG_HAD_STOPPED = 921 /* the place had stopped before */
};

/* A fault, and where it is. The numbers that a kind doesn't have are 0. */
typedef struct burjeeg_fault {
    uint32_t kind;     /* one of burjeeg_kind */
    uint16_t function; /* the number of the function */
    uint16_t pc;       /* the number of the instruction in it */
    uint64_t at;       /* the line of a text, from 1, or the number of a limit */
} burjeeg_fault;

/* Verifies an image of `length` bytes. BURJEEG_DONE: it is the image of a module that the verifier accepts. BURJEEG_REFUSED:
 * it isn't. */
uint32_t burjeeg_verify(const uint8_t *image, size_t length, burjeeg_fault *fault);

/* Writes to `bounds`, for each function of an image, how many steps a call of it takes at most, with those that it calls by
 * CALL and AT. `room` and `*count` are numbers of functions. Where there are more than `room`, it is as with the calls below. */
uint32_t burjeeg_bounds(const uint8_t *image, size_t length, uint64_t *bounds, size_t room, size_t *count, burjeeg_fault *fault);

/* The calls below write text or bytes to the front of a buffer of `room` bytes, with no 0 behind it, and to `*needed` how many
 * they are. Where they are more than `room`, the status is BURJEEG_SMALL, the buffer is as it was, and the fault is that of the
 * work, if it has one: make a buffer of `*needed` bytes and call again. A refused call has written nothing, except for
 * burjeeg_check. */

/* Writes the canonical listing of an image. */
uint32_t burjeeg_list(const uint8_t *image, size_t length, uint8_t *buffer, size_t room, size_t *needed, burjeeg_fault *fault);

/* Writes the image of a text, which is UTF-8. */
uint32_t burjeeg_assemble(const uint8_t *text, size_t length, uint8_t *buffer, size_t room, size_t *needed, burjeeg_fault *fault);

/* Writes the report about a text or an image, as `x10p check` prints it: the bound of each function, or, with BURJEEG_REFUSED,
 * what is wrong and what helps. Bytes that begin with "X10P" are taken as an image. */
uint32_t burjeeg_check(const uint8_t *bytes, size_t length, uint8_t *buffer, size_t room, size_t *needed, burjeeg_fault *fault);

/* Verifies an image, runs it, and writes the lines that its places printed, as `x10p run` prints them. `places` is 1 to 64, or
 * 0 for the module's least number; `limit` is the most events that are made. With BURJEEG_STOPPED the lines until then are
 * written. A run goes round after round, so that it comes to the same each time. */
uint32_t burjeeg_run(
    const uint8_t *image,
    size_t length,
    uint16_t places,
    uint64_t limit,
    uint8_t *buffer,
    size_t room,
    size_t *needed,
    burjeeg_fault *fault
);

/* Writes the line by which the program tells a fault, "x10p: .." with its line end; 256 bytes are room enough. BURJEEG_REFUSED:
 * no fault has these numbers. */
uint32_t burjeeg_fault_line(const burjeeg_fault *fault, uint8_t *buffer, size_t room, size_t *needed);

/* ---- Handles
 *
 * A handle is a struct in memory of the caller's, whose fields are the library's. It begins closed, as
 * `burjeeg_place place = BURJEEG_SHUT`. */

#define BURJEEG_SHUT {0, 0}

/* A verified module. */
typedef struct burjeeg_module {
    uint64_t mark;
    void *inside;
} burjeeg_module;

/* One place of a run, with its activities. */
typedef struct burjeeg_place {
    uint64_t mark;
    void *inside;
} burjeeg_place;

/* Verifies an image, as burjeeg_verify does, and opens a handle of its module. The bytes are copied. BURJEEG_REFUSED and
 * BURJEEG_STOPPED: the fault says why, and no memory stays taken. BURJEEG_IN_USE: the handle is open already. */
uint32_t burjeeg_module_new(const uint8_t *image, size_t length, burjeeg_module *module, burjeeg_fault *fault);

/* Closes the handle of a module; one that is closed stays so. The module's memory is kept to the end of the program, since
 * places borrow it: so open one handle for a module, and not one for each run. */
void burjeeg_module_free(burjeeg_module *module);

/* Opens place `id` of a run of `places` places at its beginning: main is at place 0, and nothing at the others.
 * BURJEEG_REFUSED: the module doesn't run at so many places, or `id` isn't below their number. BURJEEG_STOPPED: memory was
 * refused. BURJEEG_CLOSED: there is no module behind the first handle. BURJEEG_IN_USE: the place's handle is open already. */
uint32_t burjeeg_place_new(burjeeg_module *module, uint16_t id, uint16_t places, burjeeg_place *place);

/* Closes a place, and gives back its memory; one that is closed stays so. */
void burjeeg_place_free(burjeeg_place *place);

/* Makes one step of the activity with a key. BURJEEG_DONE: it moved, and burjeeg_place_sent gives what it put out.
 * BURJEEG_NOTHING: there is no such activity, it is away, another is inside an atomic region, or it waits at the end of a
 * finish. BURJEEG_STOPPED: the place has stopped, for want of memory or at a limit, and makes no more steps; the fault says
 * which. */
uint32_t burjeeg_place_step(burjeeg_place *place, size_t key, burjeeg_fault *fault);

/* Writes frame `number`, 0 or 1, of those that the last step put out: to `*to` the place that it is for, and its bytes to the
 * buffer, as with the calls above. BURJEEG_NOTHING: it put out no more. Frames are to be sent in this order, each as it is. */
uint32_t burjeeg_place_sent(burjeeg_place *place, size_t number, uint16_t *to, uint8_t *buffer, size_t room, size_t *needed);

/* Takes in the bytes of a frame that came from a place. Any bytes may come. BURJEEG_REFUSED: they are no frame that fits, the
 * fault says why, and the place is as before. BURJEEG_STOPPED: the place has stopped. */
uint32_t burjeeg_place_receive(burjeeg_place *place, const uint8_t *bytes, size_t length, burjeeg_fault *fault);

/* Writes to `*key` the least key of an activity here that is at least `from`. BURJEEG_NOTHING: there is none. */
uint32_t burjeeg_place_next_key(burjeeg_place *place, size_t from, size_t *key);

/* BURJEEG_DONE: the run has ended, as place 0 knows by what it counts and what was reported to it. BURJEEG_NOTHING: not yet, or
 * this isn't place 0. */
uint32_t burjeeg_place_closed(burjeeg_place *place);

/* Writes line `number`, from 0, of those that the place printed: a number in decimal, or a text, with no line end.
 * BURJEEG_NOTHING: it printed no more. BURJEEG_STOPPED: memory was refused. */
uint32_t burjeeg_place_line(burjeeg_place *place, size_t number, uint8_t *buffer, size_t room, size_t *needed);

/* All places of a run, and the frames between them. */
typedef struct burjeeg_world {
    uint64_t mark;
    void *inside;
} burjeeg_world;

/* Opens a world of a module at its beginning, at `places` places. BURJEEG_REFUSED: the module doesn't run at so many.
 * BURJEEG_STOPPED: memory was refused. BURJEEG_CLOSED: there is no module behind the first handle. BURJEEG_IN_USE: the world's
 * handle is open already. */
uint32_t burjeeg_world_new(burjeeg_module *module, uint16_t places, burjeeg_world *world);

/* Closes a world, and gives back its memory; one that is closed stays so. */
void burjeeg_world_free(burjeeg_world *world);

/* Makes one step of the activity with a key at a place. BURJEEG_DONE: it moved. BURJEEG_NOTHING: no activity that can move has
 * the key there, and nothing has changed. BURJEEG_STOPPED: the world has stopped, out of memory or at a limit, and makes no more
 * events; the fault says which. */
uint32_t burjeeg_world_step(burjeeg_world *world, uint16_t place, size_t key, burjeeg_fault *fault);

/* Delivers the frame with a number to the place that it is for. Frames are numbered from 0 in the order in which they are put
 * out. BURJEEG_DONE: the place took it in. BURJEEG_NOTHING: no frame with the number is in flight, and nothing has changed.
 * BURJEEG_STOPPED: as of a step. */
uint32_t burjeeg_world_deliver(burjeeg_world *world, uint64_t number, burjeeg_fault *fault);

/* Writes to `*key` the least key of an activity at a place that is at least `from`. BURJEEG_NOTHING: there is none. */
uint32_t burjeeg_world_next_key(burjeeg_world *world, uint16_t place, size_t from, size_t *key);

/* Writes to `*number` the least number of a frame in flight to a place that is at least `from`. BURJEEG_NOTHING: there is none. */
uint32_t burjeeg_world_next_frame(burjeeg_world *world, uint16_t place, uint64_t from, uint64_t *number);

/* Writes the frame in flight with a number, as burjeeg_place_sent does. BURJEEG_NOTHING: there is none. */
uint32_t burjeeg_world_frame(burjeeg_world *world, uint64_t number, uint16_t *to, uint8_t *buffer, size_t room, size_t *needed);

/* BURJEEG_DONE: the run has ended, as place 0 knows it, and no activity lives. BURJEEG_NOTHING: not yet. */
uint32_t burjeeg_world_closed(burjeeg_world *world);

/* Writes line `number` of those that a place printed, as burjeeg_place_line does. */
uint32_t burjeeg_world_line(burjeeg_world *world, uint16_t place, size_t number, uint8_t *buffer, size_t room, size_t *needed);

#ifdef __cplusplus
}
#endif

#endif

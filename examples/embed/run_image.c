/* Verifies an image and runs it, as `x10p run IMAGE` does: the same lines, the same fault, the same status.
 *
 *     cc -std=c99 run_image.c -IDIR/include DIR/lib/libburjeeg.a -o run_image
 *     ./run_image IMAGE [PLACES]
 */
#include <burjeeg.h>
#include <stdio.h>
#include <stdlib.h>

/* the most events, as `x10p run` has it */
#define EVENTS 1000000

/* Reads a file whole; NULL where it can't be read. */
static uint8_t *read_file(const char *name, size_t *length)
{
    FILE *file = fopen(name, "rb");
    uint8_t *bytes = malloc(1);
    size_t room = 1;
    *length = 0;
    while (file && bytes) {
        size_t more = fread(bytes + *length, 1, room - *length, file);
        *length += more;
        if (more == 0) {
            fclose(file);
            return bytes;
        }
        room = *length * 2;
        uint8_t *larger = realloc(bytes, room);
        if (!larger)
            free(bytes);
        bytes = larger;
    }
    if (file)
        fclose(file);
    else
        free(bytes);
    return NULL;
}

/* Runs an image into a buffer that is made as large as it has to be. */
static uint32_t run(const uint8_t *image, size_t length, uint16_t places, uint8_t **lines, size_t *needed, burjeeg_fault *fault)
{
    size_t room = 256;
    for (;;) {
        *lines = malloc(room);
        if (!*lines)
            return BURJEEG_STOPPED;
        uint32_t status = burjeeg_run(image, length, places, EVENTS, *lines, room, needed, fault);
        if (status != BURJEEG_SMALL)
            return status;
        free(*lines);
        room = *needed;
    }
}

int main(int count, char **words)
{
    size_t length, needed = 0;
    uint8_t *image = count > 1 ? read_file(words[1], &length) : NULL;
    if (!image) {
        fputs("run_image: give the file of an image\n", stderr);
        return 4;
    }
    uint8_t *lines;
    burjeeg_fault fault = {BURJEEG_MEMORY, 0, 0, 0};
    uint16_t places = count > 2 ? (uint16_t)atoi(words[2]) : 0;
    uint32_t status = run(image, length, places, &lines, &needed, &fault);
    if (lines)
        fwrite(lines, 1, needed, stdout);
    if (status != BURJEEG_DONE) {
        uint8_t line[256];
        if (burjeeg_fault_line(&fault, line, sizeof line, &needed) == BURJEEG_DONE)
            fwrite(line, 1, needed, stderr);
    }
    free(lines);
    free(image);
    return (int)status;
}

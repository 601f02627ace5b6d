/* Linked with an example and --wrap=malloc, --wrap=realloc and --wrap=free: it refuses the request for memory whose number REFUSED
 * says. At the end the status is 8 where there were fewer requests, and else 9 where memory is taken still, unless KEEPS is set.
 */
#include <stdlib.h>
#include <unistd.h>

static long taken, requests, refused;

void *__real_malloc(size_t size);
void *__real_realloc(void *block, size_t size);
void __real_free(void *block);

static void __attribute__((constructor)) begin(void)
{
    const char *number = getenv("REFUSED");
    refused = number ? atol(number) : 0;
}

static void __attribute__((destructor)) end(void)
{
    if (requests < refused)
        _exit(8);
    if (taken && !getenv("KEEPS"))
        _exit(9);
}

void *__wrap_malloc(size_t size)
{
    void *block = ++requests == refused ? NULL : __real_malloc(size);
    taken += block != NULL;
    return block;
}

void *__wrap_realloc(void *block, size_t size)
{
    void *larger = ++requests == refused ? NULL : __real_realloc(block, size);
    taken += block == NULL && larger != NULL;
    return larger;
}

void __wrap_free(void *block)
{
    taken -= block != NULL;
    __real_free(block);
}

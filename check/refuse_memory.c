/* Preloaded under a program, refuses one of its requests for memory: the one of the number FAIL_AT, from 1.
 * When it does, a byte goes to the descriptor FAIL_NOTE, so that whoever counts up knows when to stop.
 * The program asks by malloc and realloc alone.
 */
#define _GNU_SOURCE
#include <dlfcn.h>
#include <errno.h>
#include <stdlib.h>
#include <unistd.h>

static void *(*plain_malloc)(size_t);
static void *(*plain_realloc)(void *, size_t);
static long requests_left;
static int note;

static long number(const char *name)
{
    const char *text = getenv(name);
    return text ? atol(text) : -1;
}

static void begin(void)
{
    plain_malloc = (void *(*)(size_t))dlsym(RTLD_NEXT, "malloc");
    plain_realloc = (void *(*)(void *, size_t))dlsym(RTLD_NEXT, "realloc");
    requests_left = number("FAIL_AT");
    note = (int)number("FAIL_NOTE");
}

static int is_refused(void)
{
    if (requests_left <= 0 || --requests_left > 0)
        return 0;
    if (write(note, "!", 1) != 1)
        _exit(99);
    errno = ENOMEM;
    return 1;
}

void *malloc(size_t size)
{
    if (!plain_malloc)
        begin();
    return is_refused() ? NULL : plain_malloc(size);
}

void *realloc(void *block, size_t size)
{
    if (!plain_realloc)
        begin();
    return is_refused() ? NULL : plain_realloc(block, size);
}

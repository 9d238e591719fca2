/* Preloaded under a program, counts its requests for memory, and the bytes that it holds. When the program ends, the number of
 * requests is written to the descriptor COUNT_NOTE, and how many bytes weren't given back to the descriptor HELD_NOTE. The program
 * asks by malloc and realloc alone.
 */
#define _GNU_SOURCE
#include <dlfcn.h>
#include <malloc.h>
#include <stdio.h>
#include <stdlib.h>
#include <unistd.h>

static void *(*plain_malloc)(size_t);
static void *(*plain_realloc)(void *, size_t);
static void (*plain_free)(void *);
static long requests;
static long held;

static void begin(void)
{
    plain_malloc = (void *(*)(size_t))dlsym(RTLD_NEXT, "malloc");
    plain_realloc = (void *(*)(void *, size_t))dlsym(RTLD_NEXT, "realloc");
    plain_free = (void (*)(void *))dlsym(RTLD_NEXT, "free");
}

static void tell_to(const char *note, long number)
{
    if (note)
        dprintf(atoi(note), "%ld", number);
}

__attribute__((destructor)) static void tell(void)
{
    long counted = requests, kept = held;
    tell_to(getenv("COUNT_NOTE"), counted);
    tell_to(getenv("HELD_NOTE"), kept);
}

void *malloc(size_t size)
{
    if (!plain_malloc)
        begin();
    requests++;
    void *block = plain_malloc(size);
    held += malloc_usable_size(block);
    return block;
}

void *realloc(void *block, size_t size)
{
    if (!plain_malloc)
        begin();
    requests++;
    long before = malloc_usable_size(block);
    void *moved = plain_realloc(block, size);
    if (moved || !size)
        held += (long)malloc_usable_size(moved) - before;
    return moved;
}

void free(void *block)
{
    if (!plain_malloc)
        begin();
    held -= malloc_usable_size(block);
    plain_free(block);
}

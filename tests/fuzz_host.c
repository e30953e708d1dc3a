/* Asks lenogneiss_judge for each case of a stream and prints a line with its answer.
 *
 *   fuzz_host       < stream    dumps lie between pages that cannot be touched, and can only be read
 *   fuzz_host heap  < stream    each dump is a block of its own on the heap, for tools that watch the heap
 *
 * A case is the length of the dump, its bytes, p and q; numbers have eight bytes, the lowest first. So one
 * process answers thousands of cases. A call that reads outside the dump or writes to it ends the process.
 */
#define _DEFAULT_SOURCE
#include <stdbool.h>
#include <stdint.h>
#include <stdio.h>
#include <stdlib.h>
#include <string.h>
#include <sys/mman.h>

#include "lenogneiss.h"

enum { PAGE = 4096 };

static void fail(const char *why)
{
    fprintf(stderr, "fuzz_host: %s\n", why);
    exit(2);
}

/* Reads a number of eight bytes from the stream; false at its end. */
static bool number(uint64_t *value)
{
    uint8_t bytes[8];
    size_t got = fread(bytes, 1, 8, stdin);
    if (got == 0) return false;
    if (got < 8) fail("the stream is cut short");
    *value = 0;
    for (int i = 7; i >= 0; i--) *value = *value << 8 | bytes[i];
    return true;
}

/* The dump on the heap, at its exact size. */
static uint32_t ask_heap(const uint8_t *dump, size_t length, uint64_t p, uint64_t q)
{
    uint8_t *block = malloc(length > 0 ? length : 1);
    if (block == NULL) fail("no memory");
    memcpy(block, dump, length);
    uint32_t answer = lenogneiss_judge(length > 0 ? block : NULL, length, p, q);
    if (memcmp(block, dump, length) != 0) fail("the call wrote to the dump");
    free(block);
    return answer;
}

/* The dump in pages that can only be read, with a page before and one after that cannot even be read. In one
 * case it ends where the page after begins, in the next it starts up to seven bytes past the page before, so
 * that dumps lie at every alignment. */
static uint32_t ask_fenced(const uint8_t *dump, size_t length, uint64_t p, uint64_t q, size_t turn)
{
    size_t body = (length + 7 + PAGE) / PAGE * PAGE;
    uint8_t *pages = mmap(NULL, body + 2 * PAGE, PROT_NONE, MAP_PRIVATE | MAP_ANONYMOUS, -1, 0);
    if (pages == MAP_FAILED) fail("no pages");
    uint8_t *inner = pages + PAGE;
    uint8_t *place = turn % 2 == 0 ? inner + body - length : inner + turn / 2 % 8;
    if (mprotect(inner, body, PROT_READ | PROT_WRITE) != 0) fail("cannot open the pages");
    memcpy(place, dump, length);
    if (mprotect(inner, body, PROT_READ) != 0) fail("cannot close the pages");
    if (length == 0 && turn % 4 < 2) place = NULL;
    uint32_t answer = lenogneiss_judge(place, length, p, q);
    if (munmap(pages, body + 2 * PAGE) != 0) fail("cannot give the pages back");
    return answer;
}

int main(int count, char **words)
{
    bool heap = count == 2 && strcmp(words[1], "heap") == 0;
    uint64_t length, p, q;
    uint8_t *dump = NULL;
    if (count > 1 && !heap) fail("usage: fuzz_host [heap]");
    setvbuf(stdout, NULL, _IOLBF, BUFSIZ);
    for (size_t turn = 0; number(&length); turn++) {
        dump = realloc(dump, length > 0 ? length : 1);
        if (dump == NULL) fail("no memory");
        if (fread(dump, 1, length, stdin) < length) fail("the stream is cut short");
        if (!number(&p) || !number(&q)) fail("the stream is cut short");
        uint32_t answer = heap ? ask_heap(dump, length, p, q) : ask_fenced(dump, length, p, q, turn);
        printf("%lu\n", (unsigned long)answer);
    }
    free(dump);
    return 0;
}

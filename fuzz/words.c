#define _DEFAULT_SOURCE
#include "words.h"
#include "check.h"
#include <string.h>
#include <sys/mman.h>
#include <unistd.h>

#define UNTOUCHED_BYTE 0xBE
#define UNTOUCHED 0xBEBE
#define FENCED_WORDS 81920 /* more than a size word can say, and whole pages */

Words fenced(int place, size_t words)
{
    static uint16_t *ends[PLACES];
    size_t bytes = FENCED_WORDS * sizeof(uint16_t), page = (size_t)sysconf(_SC_PAGESIZE);
    Words w;
    if (!ends[place]) {
        unsigned char *area = mmap(NULL, bytes + page, PROT_READ | PROT_WRITE, MAP_PRIVATE | MAP_ANONYMOUS, -1, 0);
        CHECK(area != MAP_FAILED && mprotect(area + bytes, page, PROT_NONE) == 0);
        ends[place] = (uint16_t *)(void *)(area + bytes);
    }
    CHECK(words <= FENCED_WORDS);
    w.at = ends[place] - words;
    w.words = words;
    return w;
}

Words copied(int place, const uint16_t *words, size_t n)
{
    Words w = fenced(place, n);
    if (n) memcpy(w.at, words, n * sizeof *words);
    return w;
}

Words lent(int place, size_t n)
{
    Words w = fenced(place, n);
    memset(w.at, UNTOUCHED_BYTE, n * sizeof *w.at);
    return w;
}

int untouched(Words w, size_t from)
{
    const uint16_t *rest = w.at + from;
    size_t n = w.words - from;
    return n == 0 || (rest[0] == UNTOUCHED && memcmp(rest, rest + 1, (n - 1) * sizeof *rest) == 0);
}

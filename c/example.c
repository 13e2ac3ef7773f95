/* Document 01's case: four fragments, links 0-1 0-2 0-3 1-2, room 2. The list file comes in parts of three bytes, as from a slow line.
 * Prints its sole links and cut fragments. */
#include "welmocant.h"
#include <stdio.h>
#include <string.h>

enum { N = 4, K = 2, PART = 3 };

static const uint8_t file[] = {4, 0, 1, 0, 2, 0, 3, 1, 2};

static uint32_t state[WELMOCANT_STATE], frag[WELMOCANT_FRAG_WORDS(N)], held[WELMOCANT_HELD_WORDS(N, K)];

#define TABLES state, WELMOCANT_STATE, frag, WELMOCANT_FRAG_WORDS(N), held, WELMOCANT_HELD_WORDS(N, K)

/* Tells the links of the file, part by part: the whole links are taken, what is left of one goes in front of the next part. */
static uint32_t tell(size_t at) {
    uint8_t buffer[PART + 5];
    size_t have = 0;
    uint64_t place;
    while (at < sizeof file) {
        size_t more = sizeof file - at < PART ? sizeof file - at : PART;
        memcpy(buffer + have, file + at, more);
        have += more, at += more;
        size_t whole = at < sizeof file ? welmocant_whole(buffer, have) : have;
        uint32_t refusal = welmocant_take(TABLES, buffer, whole, &place);
        if (refusal != 0) {
            return refusal;
        }
        have -= whole;
        memmove(buffer, buffer + whole, have);
    }
    return 0;
}

int main(void) {
    uint32_t n = 0;
    uint64_t begins = 0, out = 0;
    uint32_t refusal = welmocant_head(file, sizeof file, &n, &begins);
    if (refusal == 0) {
        refusal = welmocant_start(n, K, TABLES);
    }
    while (refusal == 0) {
        refusal = tell((size_t)begins);
        if (refusal == 0) {
            refusal = welmocant_close(TABLES, &out);
        }
        if (refusal != 0 || out == WELMOCANT_READ) {
            break;
        }
        if (out == WELMOCANT_DONE) {
            refusal = welmocant_open_reading(TABLES);
        }
    }
    if (refusal != 0) {
        printf("refused %u\n", (unsigned)refusal);
        return 1;
    }
    for (uint32_t v = 0; v < n; v++) {
        if (welmocant_cut(TABLES, v, &out) == 0 && out == 1) {
            printf("cut %u\n", (unsigned)v);
        }
    }
    for (uint32_t a = 0; a < n; a++) {
        for (uint32_t b = a + 1; b < n; b++) {
            if (welmocant_sole(TABLES, a, b, &out) == 0 && out == 1) {
                printf("sole %u %u\n", (unsigned)a, (unsigned)b);
            }
        }
    }
    return 0;
}

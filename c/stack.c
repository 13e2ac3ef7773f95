/* How many bytes of stack each call uses: it runs on a stack of its own that was filled with a pattern, and what is changed is counted.
 * Prints a line for each call, and fails where one uses more than 4 KB; tell, which goes through all of them and the report, 5 KB; a call that
 * has to do with a list's bytes only, 176 bytes. Linked with -z now, since the dynamic linker would else look for memcpy on the stack that is
 * measured. */
#include "welmocant.h"
#include <stdio.h>
#include <stdlib.h>
#include <string.h>
#include <ucontext.h>

enum { ROOM = 1 << 16, MOST = 4096, TELL_MOST = 5120, BYTES_MOST = 176, PATTERN = 0xA5, N = 2000, TOLD = 500, PART = 4096 };
enum { NONE, HEAD, WHOLE, START, ADOPT, TAKE, TAKE_READING, CLOSE, CLOSE_READING, OPEN, PARENT, LEVEL, PIECE, CUT, SOLE, BEGIN, TELL, WRITE_LIST, LINK_AT, CALLS };

static const char *names[CALLS] = {"none", "head", "whole", "start", "adopt", "take in Building", "take in Reading", "close in Building", "close in Reading", "open_reading", "parent", "level", "piece", "cut", "sole", "begin", "tell", "write_list", "link_at"};
static size_t used[CALLS];
static unsigned char area[ROOM];
static ucontext_t here, there;

static uint32_t n, k, v, w, refusal, state[WELMOCANT_STATE], frag[WELMOCANT_FRAG_WORDS(N)], held[WELMOCANT_HELD_WORDS(N, WELMOCANT_ROOM_MOST)], parents[N];
static uint32_t telling[WELMOCANT_TELLING], next, links[1 << 17];
static uint64_t out;
static uint8_t list[1 << 20], *block, buffer[PART], written[1 << 20], text[WELMOCANT_TEXT_BYTES(TOLD)];
static size_t bytes, count, heard;
static int call;

#define TABLES state, WELMOCANT_STATE, frag, WELMOCANT_FRAG_WORDS(n), held, WELMOCANT_HELD_WORDS(n, k)

static void run(void) {
    switch (call) {
    case HEAD: refusal = welmocant_head(list, bytes, &w, &out); break;
    case WHOLE: out = welmocant_whole(block, bytes); break;
    case START: refusal = welmocant_start(n, k, TABLES); break;
    case ADOPT: refusal = welmocant_adopt(n, k, parents, n, TABLES); break;
    case TAKE: case TAKE_READING: refusal = welmocant_take(TABLES, block, bytes, &out); break;
    case CLOSE: case CLOSE_READING: refusal = welmocant_close(TABLES, &out); break;
    case OPEN: refusal = welmocant_open_reading(TABLES); break;
    case PARENT: refusal = welmocant_parent(TABLES, v, &out); break;
    case LEVEL: refusal = welmocant_level(TABLES, v, &out); break;
    case PIECE: refusal = welmocant_piece(TABLES, v, &out); break;
    case CUT: refusal = welmocant_cut(TABLES, v, &out); break;
    case SOLE: refusal = welmocant_sole(TABLES, v, w, &out); break;
    case BEGIN: refusal = welmocant_begin(k, telling, WELMOCANT_TELLING); break;
    case TELL:
        next = welmocant_tell(telling, WELMOCANT_TELLING, frag, WELMOCANT_FRAG_WORDS(n), held, WELMOCANT_HELD_WORDS(n, k), buffer, PART, text, sizeof text, heard);
        refusal = telling[12];
        break;
    case WRITE_LIST: refusal = welmocant_write_list(n, links, count, written, sizeof written, &out); break;
    case LINK_AT: refusal = welmocant_link_at(n, 0, block, bytes, 0, &v, &w, &out); break;
    default: break;
    }
}

/* How many bytes at the end of the stack were changed. */
static size_t changed(void) {
    size_t same = 0;
    while (same < ROOM && area[same] == PATTERN) {
        same++;
    }
    return ROOM - same;
}

static void measure(int which) {
    memset(area, PATTERN, ROOM);
    getcontext(&there);
    there.uc_stack.ss_sp = area;
    there.uc_stack.ss_size = ROOM;
    there.uc_link = &here;
    call = which;
    refusal = 0;
    makecontext(&there, run, 0);
    swapcontext(&here, &there);
    if (changed() > used[which]) {
        used[which] = changed();
    }
    if (refusal != 0 && !(which == SOLE && refusal == WELMOCANT_SAME)) {
        printf("%s: refused %u\n", names[which], (unsigned)refusal);
        exit(1);
    }
}

static size_t put(size_t at, uint32_t x) {
    for (; x >= 128; x /= 128) {
        list[at++] = (uint8_t)(x % 128 + 128);
    }
    list[at++] = (uint8_t)x;
    return at;
}

/* The links of a list of a kind (0 at random, 1 a chain first, 2 close together), from byte `at` of the list on. */
static void fill(size_t at, int kind, uint32_t most) {
    static uint32_t seed = 7;
    for (uint32_t i = 0; i < most; i++) {
        seed = seed * 1664525u + 1013904223u;
        uint32_t a = (seed >> 8) % n, b = (a + 1 + (seed >> 20) % (kind == 2 ? 40 : n - 1)) % n;
        if (kind == 1 && i + 1 < n) {
            a = i, b = i + 1;
        }
        links[2 * i] = a, links[2 * i + 1] = b;
        at = put(put(at, a), b);
    }
    count = 2 * most;
    bytes = at;
    block = list;
}

/* The bytes of a list by themselves, its numbers as long as they can be. */
static void byte_course(void) {
    n = WELMOCANT_FRAGMENTS_MOST;
    bytes = put(0, n);
    measure(HEAD);
    fill(0, 0, 4000);
    measure(WHOLE), measure(WRITE_LIST);
    for (size_t link = 0; link < count; link += 2) {
        measure(LINK_AT);
        block += out, bytes -= out;
    }
}

static size_t allowed(int which) {
    switch (which) {
    case HEAD: case WHOLE: case WRITE_LIST: case LINK_AT: return BYTES_MOST;
    case TELL: return TELL_MOST;
    default: return MOST;
    }
}

/* From start to the questions, and its forest adopted. */
static void course(int kind, uint32_t room, uint32_t most) {
    n = N, k = room;
    fill(0, kind, most);
    measure(START);
    do {
        measure(TAKE);
        measure(CLOSE);
    } while (out == WELMOCANT_MORE);
    measure(OPEN);
    measure(TAKE_READING);
    measure(CLOSE_READING);
    for (v = 0; v < n; v++) {
        measure(PARENT);
        parents[v] = w = (uint32_t)out;
        if (v % 50 == 0) {
            measure(LEVEL), measure(PIECE), measure(CUT), measure(SOLE);
        }
    }
    measure(ADOPT);
}

/* A file told, from its head to the report. */
static void tell_course(int kind, uint32_t room, uint32_t most) {
    size_t at = 0;
    n = TOLD, k = room;
    fill(put(0, n), kind, most);
    measure(BEGIN);
    do {
        size_t have = telling[10];
        heard = bytes - at < PART - have ? bytes - at : PART - have;
        memcpy(buffer + have, list + at, heard);
        at += heard;
        measure(TELL);
        at = next == WELMOCANT_AGAIN ? 0 : at;
    } while (next == WELMOCANT_GO_ON || next == WELMOCANT_AGAIN);
}

int main(void) {
    int bad = 0;
    measure(NONE);
    byte_course();
    for (int kind = 0; kind < 3; kind++) {
        course(kind, 1, 4000), course(kind, 4, 8000), course(kind, WELMOCANT_ROOM_MOST, 60000);
        tell_course(kind, 1, 4000), tell_course(kind, 4, 8000), tell_course(kind, WELMOCANT_ROOM_MOST, 60000);
    }
    for (int i = 1; i < CALLS; i++) {
        size_t stack = used[i] - used[NONE];
        printf("%-18s %zu\n", names[i], stack);
        bad |= stack > allowed(i);
    }
    return bad;
}

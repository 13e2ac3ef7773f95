/* Reports on the list file that is named, with room 4, by plain read(). All that is done is what welmocant_tell asks for.
 * Status: 0 a report, 1 a refusal, 2 no such file, 3 a read or a write that failed, or no memory. */
#include "welmocant.h"
#include <errno.h>
#include <fcntl.h>
#include <stdio.h>
#include <stdlib.h>
#include <unistd.h>

enum { K = 4, PART = 4096 };

static uint32_t telling[WELMOCANT_TELLING];
static uint8_t buffer[PART];

static size_t number_at(int word) { return (size_t)telling[word] | (size_t)telling[word + 1] << 32; }

/* The number of fragments in the file's head, for the size of the tables; 1 where there is none, and welmocant_tell says why. */
static uint32_t fragments(int file) {
    uint8_t head[3];
    uint32_t n = 0;
    uint64_t begins;
    ssize_t got = file < 0 ? 0 : pread(file, head, sizeof head, 0);
    return got > 0 && welmocant_head(head, (size_t)got, &n, &begins) == 0 ? n : 1;
}

/* What is heard of the file: the answer of the next read, which goes behind the bytes at the buffer's front. */
static size_t hear(int file) {
    size_t have = number_at(10);
    return file < 0 ? WELMOCANT_NO_FILE : (size_t)read(file, buffer + have, PART - have);
}

int main(int count, char **words) {
    if (count != 2) {
        fprintf(stderr, "usage: tell path/to/links.sev\n");
        return 3;
    }
    int file = open(words[1], O_RDONLY);
    if (file < 0 && errno != ENOENT) {
        perror(words[1]);
        return 3;
    }
    uint32_t n = fragments(file), next = WELMOCANT_GO_ON;
    size_t frags = WELMOCANT_FRAG_WORDS(n), helds = WELMOCANT_HELD_WORDS(n, K), texts = WELMOCANT_TEXT_BYTES(n);
    uint32_t *frag = malloc(frags * sizeof *frag), *held = malloc(helds * sizeof *held);
    uint8_t *text = malloc(texts);
    if (frag == NULL || held == NULL || text == NULL) {
        return 3;
    }
    welmocant_begin(K, telling, WELMOCANT_TELLING);
    while (next == WELMOCANT_GO_ON || next == WELMOCANT_AGAIN) {
        next = welmocant_tell(telling, WELMOCANT_TELLING, frag, frags, held, helds, buffer, PART, text, texts, hear(file));
        if (next == WELMOCANT_AGAIN && lseek(file, 0, SEEK_SET) != 0) {
            return 3;
        }
    }
    size_t size = number_at(10);
    if (next == WELMOCANT_UNREAD || fwrite(text, 1, size, stdout) != size || fflush(stdout) != 0) {
        return 3;
    }
    return next == WELMOCANT_REPORT ? 0 : next == WELMOCANT_REFUSED ? 1 : 2;
}

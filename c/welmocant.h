/* A depth-first forest over a list of links that is told in blocks, again and again, in little room.
 *
 * Every function is proved: it ends, touches nothing but what is lent to it, and does what document 01 says for every input. But for
 * welmocant_whole and welmocant_tell, it answers the number of a refusal (enum below), 0 where the call is accepted. A refused call changes no
 * lent word but the last argument (welmocant_head: the last two; welmocant_link_at: the last three), with two exceptions: WELMOCANT_FALSE of
 * welmocant_close also clears the notes and goes back to Built, and welmocant_tell, which makes many calls, writes in all that is lent to it.
 *
 * What is lent
 *   state: WELMOCANT_STATE words: n, k, stage (0 Building, 1 Built, 2 Reading, 3 Read), passes, entries, held links, false mark.
 *   frag:  WELMOCANT_FRAG_WORDS(n) words. held: WELMOCANT_HELD_WORDS(n, k) words. Words past these are never written.
 * Words that are no state, because somebody wrote in them between two calls, are refused with WELMOCANT_TABLES.
 *
 * What the caller is believed for, since no function can test it
 *   - every pointer is aligned for its type and is not null, also where its length is 0;
 *   - it has as many elements behind it as its length says;
 *   - what a call writes overlaps no other argument of the call;
 *   - while a call runs nobody else writes in what is lent to it: no other thread, no device, and no file that is mapped into memory.
 *
 * Threads: nothing is kept between calls and there is no shared state. Calls on different states may run at once. Of one state one call may
 * run at a time, but several questions may whose tables are const here, while nothing writes in them; welmocant_piece writes in frag.
 *
 * Memory: nothing is allocated. Of the C library only memset and memcpy are used. Stack: under 5 KB for welmocant_tell, under 4 KB for
 * welmocant_close, under 1.2 KB for any other call; docs/LINKING.md has the figures.
 */
#ifndef WELMOCANT_H
#define WELMOCANT_H

#include <stddef.h>
#include <stdint.h>

#ifdef __cplusplus
extern "C" {
#endif

/* The limits: fragments, room, entries in one pass. */
#define WELMOCANT_FRAGMENTS_MOST 32768
#define WELMOCANT_ROOM_MOST 64
#define WELMOCANT_ENTRIES_MOST 16777215

/* Words of a state; of the fragment table for each fragment; of both tables for n fragments with room k. */
#define WELMOCANT_STATE 7
#define WELMOCANT_WORDS 16
#define WELMOCANT_FRAG_WORDS(n) ((size_t)WELMOCANT_WORDS * (size_t)(n))
#define WELMOCANT_HELD_WORDS(n, k) ((size_t)(k) * (size_t)(n))

enum {
    WELMOCANT_FRAGMENTS = 1, /* n is 0 or above 32,768 */
    WELMOCANT_ROOM = 2,      /* k is 0 or above 64 */
    WELMOCANT_SHORT = 3,     /* a lent array is too short */
    WELMOCANT_FRAGMENT = 4,  /* a fragment number is n or more */
    WELMOCANT_SAME = 5,      /* both fragments are the same */
    WELMOCANT_STAGE = 6,     /* the stage does not allow the call */
    WELMOCANT_FORM = 7,      /* a number is not in its shortest form */
    WELMOCANT_END = 8,       /* the bytes end inside a number or a link */
    WELMOCANT_FALSE = 9,     /* the list read does not have this forest */
    WELMOCANT_CYCLE = 10,    /* an adopted parent is n or more, or parents run in a cycle */
    WELMOCANT_TABLES = 11,   /* the tables are no state */
    WELMOCANT_ENTRIES = 12   /* the entry would be number 16,777,216 of its pass */
};

enum { WELMOCANT_MORE = 0, WELMOCANT_DONE = 1, WELMOCANT_READ = 2 };

/* The head of a list file, from its first bytes (three are enough): the number of fragments, and the byte where the links begin.
 * Refused (WELMOCANT_FRAGMENTS, WELMOCANT_FORM, WELMOCANT_END), *n and *begins are 0. */
uint32_t welmocant_head(const uint8_t *file, size_t bytes, uint32_t *n, uint64_t *begins);

/* How many of a buffer's bytes, from its first on, are whole links: a block for welmocant_take. What is left, at most five bytes, goes in
 * front of the next part of the list; at the list's end it is taken as it is, and refused. From bytes that are no number on all are
 * counted: welmocant_take refuses them at their place. */
size_t welmocant_whole(const uint8_t *buffer, size_t bytes);

/* Building with nothing placed. */
uint32_t welmocant_start(uint32_t n, uint32_t k, uint32_t *state, size_t states, uint32_t *frag, size_t frags, uint32_t *held, size_t helds);

/* Built, with a forest made elsewhere: the parent of each fragment, itself for a root. */
uint32_t welmocant_adopt(uint32_t n, uint32_t k, const uint32_t *parents, size_t count, uint32_t *state, size_t states, uint32_t *frag, size_t frags, uint32_t *held, size_t helds);

/* A block of whole links, in Building and Reading. Refused, *place is the first byte of the bad link. */
uint32_t welmocant_take(uint32_t *state, size_t states, uint32_t *frag, size_t frags, uint32_t *held, size_t helds, const uint8_t *block, size_t bytes, uint64_t *place);

/* The end of a pass. Accepted, *ending is WELMOCANT_MORE or WELMOCANT_DONE in Building, WELMOCANT_READ in Reading. */
uint32_t welmocant_close(uint32_t *state, size_t states, uint32_t *frag, size_t frags, uint32_t *held, size_t helds, uint64_t *ending);

/* From Built or Read to Reading. */
uint32_t welmocant_open_reading(uint32_t *state, size_t states, uint32_t *frag, size_t frags, uint32_t *held, size_t helds);

/* In Built, Reading and Read. */
uint32_t welmocant_parent(const uint32_t *state, size_t states, const uint32_t *frag, size_t frags, const uint32_t *held, size_t helds, uint32_t v, uint64_t *answer);
uint32_t welmocant_level(const uint32_t *state, size_t states, const uint32_t *frag, size_t frags, const uint32_t *held, size_t helds, uint32_t v, uint64_t *answer);

/* In Built, Reading and Read. In Built it uses scratch words of frag and clears them again. */
uint32_t welmocant_piece(const uint32_t *state, size_t states, uint32_t *frag, size_t frags, const uint32_t *held, size_t helds, uint32_t v, uint64_t *answer);

/* In Read: 1 or 0. */
uint32_t welmocant_cut(const uint32_t *state, size_t states, const uint32_t *frag, size_t frags, const uint32_t *held, size_t helds, uint32_t v, uint64_t *answer);
uint32_t welmocant_sole(const uint32_t *state, size_t states, const uint32_t *frag, size_t frags, const uint32_t *held, size_t helds, uint32_t a, uint32_t b, uint64_t *answer);

/* Telling a list file: what was read is told, and the answer says what to do next. A telling is WELMOCANT_TELLING words: the first
 * WELMOCANT_STATE are the state, for the questions once it is Read; then
 *   7       the step: 0 nothing was read, 1 at the head of a pass, 2 in its links, 3 over; a word above 3 is over too
 *   8, 9    the byte of the file at the buffer's front; after WELMOCANT_REFUSED the place (low word, high word)
 *   10, 11  how many bytes stand at the buffer's front, the next read goes behind them; once it is over how many bytes of the text are to be
 *           printed (low word, high word)
 *   12      the number of the refusal, 0 where there is none. */
#define WELMOCANT_TELLING 13

/* The text of every report on n fragments has room in so many bytes. */
#define WELMOCANT_TEXT_BYTES(n) (64 + (size_t)80 * (size_t)(n))

/* What was heard: what read() answered, so that 0 is the end of the file and -1 a read that failed; or that there is no such file. */
#define WELMOCANT_READ_FAILED ((size_t)-1)
#define WELMOCANT_NO_FILE ((size_t)-2)

enum {
    WELMOCANT_GO_ON = 0,   /* read more, behind the bytes at the buffer's front */
    WELMOCANT_AGAIN = 1,   /* read again, from the start of the file, to the buffer's front */
    WELMOCANT_REPORT = 2,  /* over: the text is the report, and the state is Read */
    WELMOCANT_REFUSED = 3, /* over: the text is the line of the refusal, and words 8, 9 and 12 have it */
    WELMOCANT_ABSENT = 4,  /* over: the text says that there is no file */
    WELMOCANT_UNREAD = 5   /* over: a read failed, and there is nothing to print */
};

/* To tell a file with room k: 0, or 3 where the array is too short, and nothing is written. A k that is no room is refused by the first
 * welmocant_tell that sees a head. */
uint32_t welmocant_begin(uint32_t k, uint32_t *telling, size_t tellings);

/* Tells what was read; a buffer has room for a link, six bytes, or is refused with WELMOCANT_SHORT. Where the telling's array is too short:
 * WELMOCANT_REFUSED, and nothing is written. What is read for a telling that is over, or whose stage word is above 3 after its first head, is
 * refused with WELMOCANT_STAGE. */
uint32_t welmocant_tell(uint32_t *telling, size_t tellings, uint32_t *frag, size_t frags, uint32_t *held, size_t helds, uint8_t *buffer, size_t bytes, uint8_t *text, size_t texts, size_t heard);

/* Writes a list to the front of a buffer: n, then the links, two words each. *size is how many bytes were written, 0 where it is refused
 * (WELMOCANT_FRAGMENTS, WELMOCANT_FRAGMENT, WELMOCANT_SAME, WELMOCANT_END for a word left over, WELMOCANT_SHORT); the buffer is then as it was. */
uint32_t welmocant_write_list(uint32_t n, const uint32_t *words, size_t count, uint8_t *buffer, size_t bytes, uint64_t *size);

/* The link at byte `at` of a block, where `entries` entries of the pass came before it: its two ends, and the byte behind it. Refused, *a and
 * *b are 0 and *next is the place. */
uint32_t welmocant_link_at(uint32_t n, uint32_t entries, const uint8_t *block, size_t bytes, size_t at, uint32_t *a, uint32_t *b, uint64_t *next);

#ifdef __cplusplus
}
#endif

#endif

/*
 * Battery fade factors, (1+x)^y in f32, and the reader of batch lines, for C99 and C++11.
 *
 * A thin layer over two static libraries whose functions are proved. `rt lib` in crates/exports and in
 * crates/batch_exports writes libexports.a and libbatch_exports.a to the folder out there; a program
 * that includes this header is linked with both, or with the first alone if it does not use the reader.
 * Before a pack is sized on an answer, read docs/ERROR-BUDGET.md. The libraries hold code translated
 * from the Rust crate pxfm 0.1.30 (BSD-3-Clause OR Apache-2.0; NOTICE has both licences). Names that
 * begin with fade_internal_ are not for callers.
 */
#ifndef FADE_H
#define FADE_H

#if !defined(__x86_64__) || !defined(__linux__)
#error "the libraries are for x86_64 Linux alone, and this is another target"
#endif

#include <stddef.h>
#include <stdint.h>
#include <string.h>

#ifdef __cplusplus
extern "C" {
#endif

#define FADE_LONGEST 30 /* the longest line, in bytes before its feed */
#define FADE_TOTALS 128 /* room for the totals and the end's line, whatever their numbers */

/* What the functions of the reader return: 0, or the number of a refusal, which touches nothing. */
enum {
    FADE_DONE = 0,
    FADE_BROKEN_STATE = 5,   /* no reader can come to this state */
    FADE_TOO_MANY_LINES = 6, /* with this piece, more than 4,294,967,295 lines */
    FADE_NO_ROOM = 7,        /* the output is shorter than what is to be written */
    FADE_UNFINISHED = 8,     /* the input ended in the middle of a line */
    /* Of this header alone: a pointer is null though its length is not 0, a length is over PTRDIFF_MAX,
     * `state` or `wrote` is null, or two of the places that are lent overlap. */
    FADE_NO_MEMORY = 255
};

/* How an answer was found; document 01 and the README say when. */
enum fade_route { FADE_RULE, FADE_WHOLE, FADE_EDGE, FADE_FAST, FADE_SLOW };

/* The answer for a pair. */
typedef struct {
    enum fade_route route;
    float value;
} fade_answer;

/* The unfinished line: its bytes, zeros past their count, or zeros alone and the count 31 where it is
 * over-long. */
typedef struct {
    uint8_t bytes[FADE_LONGEST];
    uint8_t unused[2]; /* any values are accepted; the functions below leave zeros */
    uint32_t count;
} fade_tail;

/* How many lines took each route, and how many were bad. */
typedef struct {
    uint32_t rule;
    uint32_t whole;
    uint32_t edge;
    uint32_t fast;
    uint32_t slow;
    uint32_t bad;
} fade_tallies;

/* What is carried from one piece to the next. It may be stored and restored: every value is accepted
 * or refused with its number. All zeros are the fresh state. */
typedef struct {
    fade_tail tail;
    uint32_t lines;
    fade_tallies tallies;
} fade_state;

/* What the library's feed hands back. */
typedef struct {
    fade_state state;
    uint32_t number;
    size_t wrote;
} fade_internal_handed;

/* The layout that the library reads and writes: a wrong one does not compile. */
typedef char fade_internal_sizes[sizeof(float) == 4 && sizeof(size_t) == 8 && sizeof(fade_tail) == 36
        && sizeof(fade_tallies) == 24 && sizeof(fade_state) == 64
        && sizeof(fade_internal_handed) == 80 ? 1 : -1];
typedef char fade_internal_places[offsetof(fade_tail, count) == 32
        && offsetof(fade_state, lines) == 36 && offsetof(fade_state, tallies) == 40
        && offsetof(fade_internal_handed, number) == 64
        && offsetof(fade_internal_handed, wrote) == 72 ? 1 : -1];

/* (1+x)^y, with the route that the pair takes. A NaN is always 7fc00000. */
static inline fade_answer fade_compound(float x, float y)
{
    extern uint64_t fade_compoundf(uint32_t x, uint32_t y);
    fade_answer answer;
    uint32_t nx, ny, r;
    uint64_t both;
    memcpy(&nx, &x, sizeof nx);
    memcpy(&ny, &y, sizeof ny);
    both = fade_compoundf(nx, ny); /* the route's number in the upper half, the pattern in the lower */
    r = (uint32_t)both;
    answer.route = (enum fade_route)(both >> 32);
    memcpy(&answer.value, &r, sizeof r);
    return answer;
}

/* (1+x)^y. Every pair is accepted, and the bits are those of f_compoundf of pxfm 0.1.30 built for x86_64
 * without fma and sse4.1, any two NaNs taken as alike. docs/DIFFERENCES.md says what was compared. */
static inline float fade_f_compoundf(float x, float y)
{
    return fade_compound(x, y).value;
}

/* The word after `via=`; empty for a number that is no route. */
static inline const char *fade_route_word(enum fade_route route)
{
    switch (route) {
    case FADE_RULE: return "rule";
    case FADE_WHOLE: return "whole";
    case FADE_EDGE: return "edge";
    case FADE_FAST: return "fast";
    case FADE_SLOW: return "slow";
    }
    return "";
}

/* Whether there can be no such place in memory: null though not empty, or longer than any object. */
static inline int fade_internal_no_place(const void *at, size_t length)
{
    return (at == NULL && length != 0) || length > (size_t)PTRDIFF_MAX;
}

/* Whether two places in memory share a byte. An empty one shares none. */
static inline int fade_internal_overlap(const void *a, size_t a_length, const void *b, size_t b_length)
{
    uintptr_t from_a = (uintptr_t)a, from_b = (uintptr_t)b;
    if (a_length == 0 || b_length == 0)
        return 0;
    return from_a < from_b ? from_b - from_a < a_length : from_a - from_b < b_length;
}

/* A length of output that is enough for the answer lines of any piece of so many bytes: an answer line is
 * at most 5 bytes longer than its line, each with its feed; the tail counts for at most 31 bytes, and a
 * piece of n bytes has at most n line feeds. */
static inline size_t fade_batch_room(size_t piece_length)
{
    const size_t tail = FADE_LONGEST + 1;
    return piece_length > (SIZE_MAX - tail) / 6 ? SIZE_MAX : tail + 6 * piece_length;
}

/* The state before the first piece. */
static inline fade_state fade_batch_fresh(void)
{
    extern fade_state fade_fresh(void);
    fade_state state = fade_fresh();
    memset(state.tail.unused, 0, sizeof state.tail.unused);
    return state;
}

/* Takes a piece of input, writes the answer lines of the lines whose line feed lies in it to the front of
 * `out`, and their length to `wrote`; the bytes after them keep their values. Returns FADE_DONE, or 5, 6, 7
 * or FADE_NO_MEMORY. A null pointer with length 0 is an empty piece or output. */
static inline unsigned fade_batch_feed(fade_state *state, const void *piece, size_t piece_length,
                                       void *out, size_t out_length, size_t *wrote)
{
    extern fade_internal_handed fade_feed(fade_state state, const unsigned char *piece,
                                          size_t piece_length, unsigned char *out, size_t out_length);
    fade_internal_handed handed;
    unsigned char empty = 0; /* the library takes no null pointer */
    if (state == NULL || wrote == NULL || fade_internal_no_place(piece, piece_length)
        || fade_internal_no_place(out, out_length)
        || fade_internal_overlap(piece, piece_length, out, out_length)
        || fade_internal_overlap(piece, piece_length, state, sizeof *state)
        || fade_internal_overlap(piece, piece_length, wrote, sizeof *wrote)
        || fade_internal_overlap(out, out_length, state, sizeof *state)
        || fade_internal_overlap(out, out_length, wrote, sizeof *wrote)
        || fade_internal_overlap(state, sizeof *state, wrote, sizeof *wrote))
        return FADE_NO_MEMORY;
    handed = fade_feed(*state, piece == NULL ? &empty : (const unsigned char *)piece, piece_length,
                       out == NULL ? &empty : (unsigned char *)out, out_length);
    if (handed.number != FADE_DONE)
        return handed.number;
    *state = handed.state;
    memset(state->tail.unused, 0, sizeof state->tail.unused);
    *wrote = handed.wrote;
    return FADE_DONE;
}

/* Whether the input may end here: FADE_DONE, or 5, 8 or FADE_NO_MEMORY. */
static inline unsigned fade_batch_close(const fade_state *state)
{
    extern uint32_t fade_close(fade_state state);
    return state == NULL ? (unsigned)FADE_NO_MEMORY : fade_close(*state);
}

/* Writes the line of totals, as they stand in the state, to the front of `out`, after it the line of the
 * number `end` where that is not 0, and their length to `wrote`; FADE_TOTALS bytes are always enough.
 * Returns FADE_DONE, FADE_NO_ROOM or FADE_NO_MEMORY. */
static inline unsigned fade_batch_totals(const fade_state *state, unsigned end, void *out,
                                         size_t out_length, size_t *wrote)
{
    extern size_t fade_write_totals(fade_state state, uint32_t end, unsigned char *out);
    unsigned char totals[FADE_TOTALS] = {0}; /* the library takes so many bytes and no others */
    size_t length;
    if (state == NULL || wrote == NULL || fade_internal_no_place(out, out_length)
        || fade_internal_overlap(out, out_length, state, sizeof *state)
        || fade_internal_overlap(out, out_length, wrote, sizeof *wrote)
        || fade_internal_overlap(state, sizeof *state, wrote, sizeof *wrote))
        return FADE_NO_MEMORY;
    length = fade_write_totals(*state, end, totals);
    if (out_length < length)
        return FADE_NO_ROOM;
    memcpy(out, totals, length);
    *wrote = length;
    return FADE_DONE;
}

#ifdef __cplusplus
}
#endif

#endif

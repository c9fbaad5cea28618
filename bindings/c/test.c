/* Tests fade.h. The arguments are three files: pairs with their answers, a batch, and what fade prints for
 * it. Prints the number of checks; ends with 1 at the first that fails. */
#include "fade.h"
#include <stdio.h>
#include <stdlib.h>

enum { BEFORE = 0xa5, ROOM = 4096, UNSAID = 12345 };

static unsigned long checks;

/* Counts a check, and ends the program where it does not hold. */
static void check(int holds, const char *what, int line)
{
    checks++;
    if (!holds) {
        fprintf(stderr, "test.c:%d: not so: %s\n", line, what);
        exit(1);
    }
}
#define CHECK(holds) check((holds) != 0, #holds, __LINE__)

/* Reads a file, and answers its length. */
static size_t load(const char *path, char *bytes)
{
    FILE *file = fopen(path, "rb");
    size_t length;
    if (file == NULL) {
        fprintf(stderr, "test.c: %s cannot be read\n", path);
        exit(1);
    }
    length = fread(bytes, 1, ROOM, file);
    CHECK(length > 0 && length < ROOM);
    fclose(file);
    return length;
}

/* Whether all bytes from one place up to another are as they were before. */
static int untouched(const unsigned char *bytes, size_t from, size_t to)
{
    for (; from < to; from++)
        if (bytes[from] != BEFORE)
            return 0;
    return 1;
}

static float value(uint32_t pattern)
{
    float x;
    memcpy(&x, &pattern, sizeof x);
    return x;
}

static uint32_t pattern(float x)
{
    uint32_t n;
    memcpy(&n, &x, sizeof n);
    return n;
}

/* Lines `x y r via`. */
static void pairs(const char *path)
{
    static const uint32_t nans[] = {0x7fc00000, 0xffc00000, 0x7f800001, 0xff800001, 0xffffffff};
    FILE *file = fopen(path, "r");
    unsigned nx, ny, r, count = 0;
    char via[8];
    CHECK(file != NULL);
    for (; fscanf(file, "%8x %8x %8x %7s", &nx, &ny, &r, via) == 4; count++) {
        fade_answer answer = fade_compound(value(nx), value(ny));
        CHECK(pattern(answer.value) == r);
        CHECK(strcmp(fade_route_word(answer.route), via) == 0);
        CHECK(pattern(fade_f_compoundf(value(nx), value(ny))) == r);
    }
    CHECK(count == 17 && feof(file));
    fclose(file);
    for (size_t i = 0; i < sizeof nans / sizeof *nans; i++) {
        CHECK(pattern(fade_f_compoundf(value(nans[i]), 0.0f)) == 0x7fc00000);
        CHECK(pattern(fade_f_compoundf(0.0f, value(nans[i]))) == 0x7fc00000);
        CHECK(fade_compound(value(nans[i]), value(nans[i])).route == FADE_RULE);
    }
    CHECK(strcmp(fade_route_word((enum fade_route)5), "") == 0);
}

/* A run of fade: the state, and what has been printed so far. */
struct run {
    fade_state state;
    size_t length;
    char printed[ROOM];
};

/* Feeds a piece with room enough. */
static void feed(struct run *run, const char *piece, size_t length)
{
    unsigned char out[ROOM];
    size_t wrote;
    memset(out, BEFORE, sizeof out);
    CHECK(fade_batch_feed(&run->state, piece, length, out, fade_batch_room(length), &wrote) == FADE_DONE);
    CHECK(untouched(out, wrote, sizeof out));
    memcpy(run->printed + run->length, out, wrote);
    run->length += wrote;
}

/* Prints the totals; the whole must be as wanted. The next run begins. */
static void finish(struct run *run, const char *wanted, size_t length)
{
    unsigned end = fade_batch_close(&run->state);
    char *totals = run->printed + run->length;
    size_t wrote;
    CHECK(fade_batch_totals(&run->state, end, totals, ROOM - run->length, &wrote) == FADE_DONE);
    CHECK(run->length + wrote == length && memcmp(run->printed, wanted, length) == 0);
    run->state = fade_batch_fresh();
    run->length = 0;
}

/* The sample byte by byte, and cut in two at every place; at its ends it is whole. */
static void sample(const char *batch_path, const char *printed_path)
{
    static char batch[ROOM], wanted[ROOM];
    static struct run run;
    size_t length = load(batch_path, batch), wanted_length = load(printed_path, wanted);
    run.state = fade_batch_fresh();
    for (size_t at = 0; at < length; at++)
        feed(&run, batch + at, 1);
    finish(&run, wanted, wanted_length);
    for (size_t cut = 0; cut <= length; cut++) {
        feed(&run, batch, cut);
        feed(&run, batch + cut, length - cut);
        finish(&run, wanted, wanted_length);
    }
}

/* A state with so many lines, all of them bad, and so many zeros in its tail. */
static fade_state counted(uint32_t lines, uint32_t count)
{
    fade_state state = fade_batch_fresh();
    state.tail.count = count;
    state.lines = lines;
    state.tallies.bad = lines;
    return state;
}

/* Feeds, and answers the number; an output past its end, a refusal's output and its state are checked to
 * be as they were. */
static unsigned fed(fade_state *state, const char *piece, size_t room, size_t *wrote)
{
    unsigned char out[ROOM];
    fade_state before = *state;
    unsigned number;
    *wrote = UNSAID;
    memset(out, BEFORE, sizeof out);
    number = fade_batch_feed(state, piece, strlen(piece), out, room, wrote);
    CHECK(number == FADE_DONE ? *wrote <= room : *wrote == UNSAID);
    CHECK(number == FADE_DONE || memcmp(state, &before, sizeof before) == 0);
    CHECK(untouched(out, number == FADE_DONE ? *wrote : 0, sizeof out));
    return number;
}

/* Feeds a state that is made anew for each call. */
static unsigned number_of(fade_state state, const char *piece, size_t room)
{
    size_t wrote;
    return fed(&state, piece, room, &wrote);
}

/* Row 5, a clause at a time. */
static void broken(fade_state state)
{
    CHECK(number_of(state, "", 0) == FADE_BROKEN_STATE);
    CHECK(number_of(state, "id=1\n", 0) == FADE_BROKEN_STATE);
    CHECK(number_of(state, "id=1\n\n", 100) == FADE_BROKEN_STATE);
    CHECK(fade_batch_close(&state) == FADE_BROKEN_STATE);
}

/* A state with one byte in its tail. */
static fade_state with_byte(uint32_t count, size_t place, uint8_t byte)
{
    fade_state state = counted(UINT32_MAX, count);
    state.tail.bytes[place] = byte;
    return state;
}

/* The numbers 5 to 8. */
static void refusals(void)
{
    fade_state state = fade_batch_fresh();
    size_t wrote;

    broken(counted(0, 32));
    broken(counted(0, UINT32_MAX));
    broken(with_byte(1, 0, 10));
    broken(with_byte(30, 29, 10));
    broken(with_byte(0, 0, 1));
    broken(with_byte(29, 29, 1));
    for (size_t place = 0; place < FADE_LONGEST; place++)
        broken(with_byte(31, place, 1));
    state.lines = 1;
    broken(state);
    state.lines = 0;
    state.tallies.slow = 1;
    broken(state);
    state.tallies.rule = UINT32_MAX; /* adding up only modulo 2^32 */
    broken(state);

    CHECK(number_of(counted(UINT32_MAX, 0), "\n", 100) == FADE_TOO_MANY_LINES);
    CHECK(number_of(counted(UINT32_MAX, 0), "\n", 0) == FADE_TOO_MANY_LINES);
    CHECK(number_of(counted(UINT32_MAX, 0), "id=1", 0) == FADE_DONE);
    CHECK(number_of(counted(UINT32_MAX - 1, 0), "\n\n", 100) == FADE_TOO_MANY_LINES);
    state = counted(UINT32_MAX - 1, 0);
    CHECK(fed(&state, "\n", 100, &wrote) == FADE_DONE && wrote == 6 && state.lines == UINT32_MAX);

    for (size_t room = 0; room < 40; room++) {
        state = fade_batch_fresh();
        CHECK(fed(&state, "id=7 x=3f000", 0, &wrote) == FADE_DONE && wrote == 0);
        CHECK(fed(&state, "000 y=40000000\n", room, &wrote) == (room < 26 ? FADE_NO_ROOM : FADE_DONE));
        CHECK(room < 26 ? wrote == UNSAID : wrote == 26);
    }

    for (uint32_t count = 0; count < 32; count++) {
        state = counted(9, count);
        CHECK(fade_batch_close(&state) == (count == 0 ? FADE_DONE : FADE_UNFINISHED));
    }
}

/* The totals into outputs of every length, with and without an end. */
static void totals(void)
{
    const char *text = "lines=654321 rule=1 whole=20 edge=300 fast=4000 slow=50000 bad=600000\nend=6\n";
    fade_state state = fade_batch_fresh();
    state.lines = 654321;
    state.tallies.rule = 1;
    state.tallies.whole = 20;
    state.tallies.edge = 300;
    state.tallies.fast = 4000;
    state.tallies.slow = 50000;
    state.tallies.bad = 600000;
    for (unsigned end = 0; end <= 6; end += 6) {
        size_t length = strlen(text) - (end == 0 ? 6 : 0);
        for (size_t room = 0; room < 140; room++) {
            unsigned char out[140];
            size_t wrote = UNSAID;
            unsigned number;
            memset(out, BEFORE, sizeof out);
            number = fade_batch_totals(&state, end, out, room, &wrote);
            CHECK(number == (room < length ? FADE_NO_ROOM : FADE_DONE));
            CHECK(wrote == (room < length ? (size_t)UNSAID : length));
            CHECK(untouched(out, room < length ? 0 : length, sizeof out));
            CHECK(room < length || memcmp(out, text, length) == 0);
        }
    }
}

/* The largest numbers make the longest totals; any unused bytes are accepted, and zeros are left. */
static void any_state(void)
{
    fade_state state;
    char out[FADE_TOTALS];
    size_t wrote;
    memset(&state, 0xff, sizeof state);
    CHECK(fade_batch_totals(&state, UINT32_MAX, out, sizeof out, &wrote) == FADE_DONE);
    CHECK(wrote == FADE_TOTALS && memcmp(out + 112, "\nend=", 5) == 0);
    broken(state);
    memset(state.tail.bytes, 0, FADE_LONGEST);
    state.tail.count = 31;
    state.lines = 0;
    memset(&state.tallies, 0, sizeof state.tallies);
    CHECK(fed(&state, "\n", 6, &wrote) == FADE_DONE && wrote == 6 && state.tallies.bad == 1);
    CHECK(state.tail.unused[0] == 0 && state.tail.unused[1] == 0);
    CHECK(fade_batch_room(0) == 31 && fade_batch_room(8192) == 31 + 6 * 8192);
    CHECK(fade_batch_room(SIZE_MAX / 6) == SIZE_MAX && fade_batch_room(SIZE_MAX) == SIZE_MAX);
}

/* One block of memory, all zeros, in which the places are laid out. */
static union {
    fade_state state;
    size_t wrote;
    unsigned char bytes[256];
} block;

/* Whether nothing was written to the block; it is cleared for the next call. */
static int all_zeros(void)
{
    static const unsigned char zeros[sizeof block.bytes] = {0};
    int untouched = memcmp(block.bytes, zeros, sizeof zeros) == 0;
    memset(block.bytes, 0, sizeof block.bytes);
    return untouched;
}

/* A feed with its places laid out in the block. Zeros are a fresh state and an unfinished line. */
static unsigned laid(size_t state, size_t wrote, size_t piece, size_t n, size_t out, size_t m)
{
    return fade_batch_feed((fade_state *)(void *)(block.bytes + state), block.bytes + piece, n,
                           block.bytes + out, m, (size_t *)(void *)(block.bytes + wrote));
}

/* The same for the totals, which have 50 bytes here. */
static unsigned laid_totals(size_t state, size_t wrote, size_t out, size_t m)
{
    return fade_batch_totals((const fade_state *)(const void *)(block.bytes + state), 0,
                             block.bytes + out, m, (size_t *)(void *)(block.bytes + wrote));
}

#define LAID(state, wrote, piece, n, out, m) \
    CHECK(laid(state, wrote, piece, n, out, m) == FADE_NO_MEMORY && all_zeros())
#define LAID_TOTALS(state, wrote, out, m) \
    CHECK(laid_totals(state, wrote, out, m) == FADE_NO_MEMORY && all_zeros())

/* Places side by side are accepted, places with a byte in common are not. */
static void overlaps(void)
{
    block.state = fade_batch_fresh();
    CHECK(all_zeros());
    CHECK(laid(0, 64, 72, 20, 92, 100) == FADE_DONE && block.state.tail.count == 20 && !all_zeros());
    CHECK(laid(192, 184, 84, 100, 0, 84) == FADE_DONE && !all_zeros());
    CHECK(laid(0, 64, 10, 0, 66, 0) == FADE_DONE && all_zeros()); /* empty ones overlap nothing */
    CHECK(laid(0, 64, 100, 50, 110, 0) == FADE_DONE && !all_zeros());

    LAID(0, 64, 72, 20, 91, 100); /* piece and output */
    LAID(0, 64, 110, 20, 72, 39);
    LAID(0, 64, 72, 100, 80, 10);
    LAID(0, 64, 80, 10, 72, 100);
    LAID(0, 64, 80, 1, 80, 1);
    LAID(64, 0, 127, 20, 150, 50); /* piece and state */
    LAID(64, 0, 20, 45, 150, 50);
    LAID(64, 0, 8, 140, 150, 50);
    LAID(0, 64, 71, 20, 100, 50); /* piece and the place for the length */
    LAID(0, 96, 72, 25, 150, 50);
    LAID(64, 0, 150, 50, 127, 20); /* output and state */
    LAID(64, 0, 150, 50, 20, 45);
    LAID(0, 64, 100, 50, 71, 20); /* output and the place for the length */
    LAID(0, 96, 150, 50, 72, 25);
    LAID(0, 56, 72, 20, 92, 100); /* state and the place for the length */
    LAID(4, 0, 72, 20, 92, 100);

    CHECK(laid_totals(0, 64, 72, 50) == FADE_DONE && !all_zeros());
    LAID_TOTALS(0, 64, 63, 1);
    LAID_TOTALS(0, 64, 71, 100);
    LAID_TOTALS(64, 128, 10, 55);
    LAID_TOTALS(0, 56, 100, 100);
}

/* Null pointers and lengths that no object has. */
static void no_memory(void)
{
    static const size_t too_long[] = {SIZE_MAX, SIZE_MAX / 2 + 1};
    fade_state *state = &block.state;
    unsigned char *place = block.bytes + 128;
    size_t wrote = UNSAID;

    CHECK(fade_batch_feed(NULL, place, 9, place + 9, 9, &wrote) == FADE_NO_MEMORY);
    CHECK(fade_batch_feed(state, NULL, 9, place, 9, &wrote) == FADE_NO_MEMORY);
    CHECK(fade_batch_feed(state, place, 9, NULL, 9, &wrote) == FADE_NO_MEMORY);
    CHECK(fade_batch_feed(state, place, 9, place + 9, 9, NULL) == FADE_NO_MEMORY);
    CHECK(fade_batch_close(NULL) == FADE_NO_MEMORY);
    CHECK(fade_batch_totals(NULL, 0, place, 99, &wrote) == FADE_NO_MEMORY);
    CHECK(fade_batch_totals(state, 0, NULL, 99, &wrote) == FADE_NO_MEMORY);
    CHECK(fade_batch_totals(state, 0, place, 99, NULL) == FADE_NO_MEMORY);
    for (size_t i = 0; i < 2; i++) {
        CHECK(fade_batch_feed(state, place, too_long[i], NULL, 0, &wrote) == FADE_NO_MEMORY);
        CHECK(fade_batch_feed(state, NULL, too_long[i], NULL, 0, &wrote) == FADE_NO_MEMORY);
        CHECK(fade_batch_feed(state, NULL, 0, place, too_long[i], &wrote) == FADE_NO_MEMORY);
        CHECK(fade_batch_totals(state, 0, place, too_long[i], &wrote) == FADE_NO_MEMORY);
        CHECK(fade_internal_no_place(place, too_long[i] - 1) == (i == 0));
    }
    CHECK(all_zeros() && wrote == UNSAID);

    CHECK(fade_batch_feed(state, NULL, 0, NULL, 0, &wrote) == FADE_DONE && wrote == 0 && all_zeros());
    CHECK(fade_batch_feed(state, "id=1", 4, NULL, 0, &wrote) == FADE_DONE && wrote == 0);
    CHECK(fade_batch_feed(state, NULL, 0, place, 9, &wrote) == FADE_DONE && wrote == 0);
    CHECK(state->tail.count == 4);
    wrote = UNSAID;
    CHECK(fade_batch_feed(state, "\n", 1, NULL, 0, &wrote) == FADE_NO_ROOM && wrote == UNSAID);
    CHECK(fade_batch_totals(state, 0, NULL, 0, &wrote) == FADE_NO_ROOM && wrote == UNSAID);
}

int main(int count, char **words)
{
    if (count != 4) {
        fprintf(stderr, "test.c: the arguments are the pairs, a batch, and what is printed for it\n");
        return 2;
    }
    pairs(words[1]);
    sample(words[2], words[3]);
    refusals();
    totals();
    any_state();
    overlaps();
    no_memory();
    printf("%lu checks of fade.h hold\n", checks);
    return 0;
}

/* The factor of one cell, and a batch of three lines that comes in two pieces. */
#include "fade.h"
#include <stdio.h>

/* Feeds one piece and prints the answer lines; 0 where it was refused. */
static int feed(fade_state *state, const char *piece)
{
    char out[1000];
    size_t wrote;
    unsigned number = fade_batch_feed(state, piece, strlen(piece), out, sizeof out, &wrote);
    if (number != FADE_DONE) {
        fprintf(stderr, "example: a piece was refused with %u\n", number);
        return 0;
    }
    fwrite(out, 1, wrote, stdout);
    return 1;
}

int main(void)
{
    /* A cell that loses 0.02 % a cycle, after 500 cycles. */
    fade_answer answer = fade_compound(-0.0002f, 500.0f);
    printf("%.4f of the capacity is left (via %s)\n", answer.value, fade_route_word(answer.route));

    /* The second line is cut in the middle; the third has capital letters in its x. */
    fade_state state = fade_batch_fresh();
    if (!feed(&state, "id=1 x=b951b717 y=43fa0000\nid=2 x=ba03")
        || !feed(&state, "126f y=453b8000\nid=3 x=BA03126F y=453b8000\n"))
        return 1;

    /* The totals; `end=8` would follow if the last line were unfinished. */
    char totals[FADE_TOTALS];
    size_t wrote;
    if (fade_batch_totals(&state, fade_batch_close(&state), totals, sizeof totals, &wrote) != FADE_DONE)
        return 1;
    fwrite(totals, 1, wrote, stdout);
    return 0;
}

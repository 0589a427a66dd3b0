/* Right and wrong uses by a table of two states and one input (examples/cart): prints each answer that isn't the one
   that the header tells. */
#include <inttypes.h>
#include <stdio.h>
#include <stdlib.h>
#include <string.h>
#include "gaffcurrant.h"

static int failed;

static void expect(const char *what, int64_t wanted, int64_t got)
{
    if (wanted == got) return;
    printf("%s: wanted %" PRId64 ", got %" PRId64 "\n", what, wanted, got);
    failed = 1;
}

static void expect_closed(struct gaffcurrant *c)
{
    int64_t state[2] = {395, 55}, input[1] = {77};
    int32_t replies[1] = {77};
    uint32_t states = 9, inputs = 9, rank = 9, turn = 9;
    expect("closed", 0, c->is_open);
    expect("closed: control", -3, gaffcurrant_control(c, state, 2, input, 1));
    expect("closed: control with no arrays", -3, gaffcurrant_control(c, NULL, 0, NULL, 0));
    expect("closed: control_each", -3, gaffcurrant_control_each(c, state, 2, input, 1, replies, 1));
    expect("closed: sizes", -3, gaffcurrant_sizes(c, &states, &inputs));
    expect("closed: rank", -3, gaffcurrant_rank(c, state, 2, &rank));
    expect("closed: visit", -3, gaffcurrant_visit(c, state, 2, &turn));
    expect("closed: turn", 0, turn);
    expect("closed: begin_turn", -3, gaffcurrant_begin_turn(c, 0));
    expect("closed: follows", -3, gaffcurrant_follows(c, state, 2, input, 1, state, 2));
    expect("closed: follows with no arrays", -3, gaffcurrant_follows(c, NULL, 0, NULL, 0, NULL, 0));
    expect("closed: input", 77, input[0]);
    expect("closed: replies", 77, replies[0]);
    expect("closed: states", 0, states);
    expect("closed: inputs", 0, inputs);
    expect("closed: the rank", 0, rank);
    gaffcurrant_close(c);
    gaffcurrant_close(c);
}

static void expect_refused(struct gaffcurrant *c, const uint8_t *bytes, size_t length, int32_t status, uint32_t wanted)
{
    uint32_t line = 99;
    expect("refused", status, gaffcurrant_open(c, bytes, length, &line));
    expect("refused: line", wanted, line);
    expect_closed(c);
}

static void expect_open(struct gaffcurrant *c)
{
    int64_t state[6] = {395, 55, 0, 0, 0, 0}, input[3] = {77, 77, 77}, values[2] = {77, 77};
    int64_t far[2] = {INT64_MIN, INT64_MAX}, two[4] = {395, 55, INT64_MAX, 0};
    int32_t replies[2] = {77, 77};
    uint32_t states = 9, inputs = 9, rank = 9, turn = 9;
    expect("sizes", 0, gaffcurrant_sizes(c, &states, &inputs));
    expect("states", 2, states);
    expect("inputs", 1, inputs);
    expect("rank", 1, gaffcurrant_rank(c, state, 2, &rank));
    expect("the rank", 1, rank);
    for (size_t n = 0; n <= 6; n++)
        for (size_t m = 0; m <= 3; m++)
            if (n != 2 || m != 1) expect("control of wrong sizes", -2, gaffcurrant_control(c, state, n, input, m));
    expect("control of no arrays", -2, gaffcurrant_control(c, NULL, 0, NULL, 0));
    expect("control of no inputs", -2, gaffcurrant_control(c, state, 2, NULL, 0));
    expect("rank of a wrong size", -2, gaffcurrant_rank(c, state, 3, &rank));
    expect("the rank of a wrong size", 0, rank);
    expect("rank of no array", -2, gaffcurrant_rank(c, NULL, 0, &rank));
    expect("visit of a wrong size", -2, gaffcurrant_visit(c, state, 3, &turn));
    expect("visit of no array", -2, gaffcurrant_visit(c, NULL, 0, &turn));
    expect("wrong sizes: input", 77, input[0]);
    expect("follows of no arrays", -2, gaffcurrant_follows(c, NULL, 0, NULL, 0, NULL, 0));
    expect("follows of one next state too few", -2, gaffcurrant_follows(c, state, 2, input, 1, state, 1));
    expect("follows of no input vector", -1, gaffcurrant_follows(c, state, 2, input, 1, state, 2));
    expect("follows outside", -1, gaffcurrant_follows(c, far, 2, input, 1, state, 2));
    expect("control outside", -1, gaffcurrant_control(c, far, 2, input, 1));
    expect("rank outside", -1, gaffcurrant_rank(c, far, 2, &rank));
    expect("outside: input", 77, input[0]);
    expect("outside: rank", 0, rank);
    expect("control", 1, gaffcurrant_control(c, state, 2, input, 1));
    expect("input", -20, input[0]);
    expect("the next input", 77, input[1]);
    expect("follows to far outside", 0, gaffcurrant_follows(c, state, 2, input, 1, far, 2));
    state[0] = 450, state[1] = 0, input[0] = 77;
    expect("visit in the target", 0, gaffcurrant_visit(c, state, 2, &turn));
    expect("the turn of a table", 0, turn);
    expect("the turn of a table is due", 0, gaffcurrant_begin_turn(c, 0));
    expect("another turn of a table", -2, gaffcurrant_begin_turn(c, 1));
    expect("control in the target", 0, gaffcurrant_control(c, state, 2, input, 1));
    expect("in the target: input", 77, input[0]);
    expect("none at once", 0, gaffcurrant_control_each(c, NULL, 0, NULL, 0, NULL, 0));
    expect("two at once, too many states", -2, gaffcurrant_control_each(c, two, 3, values, 2, replies, 2));
    expect("two at once, too few inputs", -2, gaffcurrant_control_each(c, two, 4, values, 1, replies, 2));
    expect("states for none", -2, gaffcurrant_control_each(c, two, 4, values, 2, NULL, 0));
    expect("wrong sizes: replies", 77, replies[0]);
    expect("two at once", 0, gaffcurrant_control_each(c, two, 4, values, 2, replies, 2));
    expect("the first of two", 1, replies[0]);
    expect("the second of two", -1, replies[1]);
    expect("the first's input", -20, values[0]);
    expect("the second's input", 77, values[1]);
}

int main(int count, char **words)
{
    static uint8_t text[1 << 20], other[1 << 20];
    struct gaffcurrant c = {0}, d = {0};
    uint32_t line = 99;
    FILE *file = count == 2 ? fopen(words[1], "rb") : NULL;
    if (!file) return 2;
    size_t length = fread(text, 1, sizeof text, file);
    fclose(file);
    memcpy(other, text, length);
    uint32_t lines = 0;
    for (size_t k = 0; k < length; k++) lines += text[k] == '\n';

    expect("size of the struct", 2 * sizeof(void *), sizeof c);
    expect_closed(&c);
    expect_refused(&c, NULL, 0, 1, 1);
    expect("open", 0, gaffcurrant_open(&c, other, length, &line));
    expect("line", 0, line);
    memset(other, 0, sizeof other);
    expect_open(&c);
    expect("open again", 0, gaffcurrant_open(&c, text, length, &line));
    expect("open another", 0, gaffcurrant_open(&d, text, length, &line));
    expect_open(&c);
    expect_open(&d);
    /* What is no text closes the one before. */
    expect_refused(&c, text, length - 1, 1, lines);
    expect_open(&d);
    expect_refused(&c, text + 1, length - 1, 1, 1);
    expect_refused(&c, (const uint8_t *)"", 0, 1, 1);
    memcpy(other, text, length), other[length] = '\n';
    expect_refused(&c, other, length + 1, 1, lines + 1);
    for (size_t k = 0; k < length; k++) {
        /* Each byte of the text changed: no table, or another one. */
        memcpy(other, text, length), other[k] ^= 1;
        int32_t status = gaffcurrant_open(&c, other, length, &line);
        int is_told = c.is_open == (status == 0) && (line > 0) == (status == 1);
        expect("a changed byte", 1, status >= 0 && status <= 2 && is_told);
        if (k > 400) k += 97;
    }
    expect("open at last", 0, gaffcurrant_open(&c, text, length, &line));
    gaffcurrant_close(&c);
    expect_closed(&c);
    expect_open(&d);
    gaffcurrant_close(&d);
    if (!failed) puts("as the header tells");
    return failed;
}

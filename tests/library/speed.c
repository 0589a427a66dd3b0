/* Beside control.c, by a table of tools/header (table.h) and its text: prints whether both answer the same,
   milliseconds to open, bytes held, and nanoseconds a step of the library, of its call for many states at once, of
   control.c, and of gaffcurrant_follows. */
#include <stdio.h>
#include <stdlib.h>
#include <string.h>
#include <time.h>
#include "gaffcurrant.h"
#include "given.h"
#include "control.c"

enum { MANY = 4096, ROUNDS = 500 };

static int64_t states[MANY][STATES], inputs[MANY][INPUTS + 1], values[MANY * (INPUTS + 1)], last[INPUTS + 1];
static int32_t replies[MANY];
static uint64_t random_word = 88172645463325252u;

static uint64_t drawn(void)
{
    random_word ^= random_word << 13, random_word ^= random_word >> 7, random_word ^= random_word << 17;
    return random_word;
}

static double seconds(void)
{
    struct timespec now;
    clock_gettime(CLOCK_MONOTONIC, &now);
    return (double)now.tv_sec + (double)now.tv_nsec * 1e-9;
}

int main(int count, char **words)
{
    FILE *file = count == 2 ? fopen(words[1], "rb") : NULL;
    uint8_t *text = malloc(64 << 20);
    if (!file || !text) return 2;
    size_t length = fread(text, 1, 64 << 20, file);
    fclose(file);
    struct gaffcurrant c = {0};
    uint32_t line;
    int64_t value[INPUTS + 1];
    size_t before = given();
    double opening = seconds();
    if (gaffcurrant_open(&c, text, length, &line)) return 1;
    opening = seconds() - opening;
    size_t held = given() - before;
    int is_same = 1;
    long sum = 0;
    for (int k = 0; k < MANY; k++) {
        for (int i = 0; i < STATES; i++) states[k][i] = LOW[i] + (int64_t)(drawn() % (uint64_t)(HIGH[i] - LOW[i] + 1));
        memset(inputs[k], 0, sizeof inputs[k]), memset(value, 0, sizeof value);
        int one = gaffcurrant_control(&c, states[k], STATES, inputs[k], INPUTS), other = control(states[k], value);
        is_same = is_same && one == other && !memcmp(inputs[k], value, sizeof value);
        if (one == GAFFCURRANT_APPLY) memcpy(last, inputs[k], sizeof last);
    }
    /* Steps from each state under an input vector to another state. */
    for (int k = 0; k < MANY; k++) {
        if (gaffcurrant_control(&c, states[k], STATES, inputs[k], INPUTS) != GAFFCURRANT_APPLY)
            memcpy(inputs[k], last, sizeof last);
        const int64_t *next = states[(k + 1) % MANY];
        is_same = is_same && gaffcurrant_follows(&c, states[k], STATES, inputs[k], INPUTS, next, STATES) >= 0;
    }
    double at[5];
    at[0] = seconds();
    for (int r = 0; r < ROUNDS; r++)
        for (int k = 0; k < MANY; k++) sum += gaffcurrant_control(&c, states[k], STATES, value, INPUTS);
    at[1] = seconds();
    for (int r = 0; r < ROUNDS; r++)
        sum += gaffcurrant_control_each(&c, states[0], MANY * STATES, values, MANY * INPUTS, replies, MANY);
    at[2] = seconds();
    for (int r = 0; r < ROUNDS; r++)
        for (int k = 0; k < MANY; k++) sum += control(states[k], value);
    at[3] = seconds();
    for (int r = 0; r < ROUNDS; r++)
        for (int k = 0; k < MANY; k++)
            sum += gaffcurrant_follows(&c, states[k], STATES, inputs[k], INPUTS, states[(k + 1) % MANY], STATES);
    at[4] = seconds();
    double each = 1e9 / (MANY * (double)ROUNDS);
    gaffcurrant_close(&c);
    printf("%s %.2f %zu %.1f %.1f %.1f %.1f %ld\n", is_same ? "same" : "differ", opening * 1e3, held,
           (at[1] - at[0]) * each, (at[2] - at[1]) * each, (at[3] - at[2]) * each, (at[4] - at[3]) * each, sum & 1);
    return 0;
}

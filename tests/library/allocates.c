/* Counts the calls of malloc, calloc, realloc and free by each call of the library (linked with --wrap): prints whether
   only gaffcurrant_open and gaffcurrant_close make any. */
#include <stdio.h>
#include <stdlib.h>
#include "gaffcurrant.h"

static long given, freed;

void *__real_malloc(size_t size);
void *__real_calloc(size_t count, size_t size);
void *__real_realloc(void *block, size_t size);
void __real_free(void *block);

void *__wrap_malloc(size_t size) { given++; return __real_malloc(size); }
void *__wrap_calloc(size_t count, size_t size) { given++; return __real_calloc(count, size); }
void *__wrap_realloc(void *block, size_t size) { given++; return __real_realloc(block, size); }
void __wrap_free(void *block) { freed++; __real_free(block); }

int main(int count, char **words)
{
    static uint8_t text[1 << 24];
    struct gaffcurrant c = {0};
    uint32_t line, states = 0, inputs = 0, rank, turn;
    int64_t state[6] = {0}, input[3] = {0}, states_of_two[12] = {0}, inputs_of_two[6] = {0};
    int32_t replies[2];
    FILE *file = count == 2 ? fopen(words[1], "rb") : NULL;
    if (!file) return 2;
    size_t length = fread(text, 1, sizeof text, file);
    fclose(file);
    given = freed = 0;
    if (gaffcurrant_open(&c, text, length, &line)) return 1;
    int opens = given > 0;
    given = freed = 0;
    if (gaffcurrant_sizes(&c, &states, &inputs)) return 1;
    for (int64_t x = -1000; x < 1000; x++) {
        for (uint32_t i = 0; i < 6; i++) state[i] = x, states_of_two[i] = states_of_two[6 + i] = x;
        gaffcurrant_visit(&c, state, states, &turn);
        if (gaffcurrant_control(&c, state, states, input, inputs) == GAFFCURRANT_APPLY)
            gaffcurrant_follows(&c, state, states, input, inputs, state, states);
        gaffcurrant_control_each(&c, states_of_two, 2 * states, inputs_of_two, 2 * inputs, replies, 2);
        gaffcurrant_rank(&c, state, states, &rank);
        gaffcurrant_begin_turn(&c, 0);
        gaffcurrant_control(&c, state, states + 1, input, inputs);
    }
    gaffcurrant_version();
    int between = given != 0 || freed != 0;
    gaffcurrant_close(&c);
    int closes = freed > 0 && given == 0;
    puts(opens && !between && closes ? "by open and close alone" : "by other calls");
    return 0;
}

/* By a text along a run: reads states, one a line, visits each but the first, and prints for each whether a turn began,
   the turn that is due, the reply, the rank and the inputs to apply, as `1 0 1 12 100 -3`. */
#include <inttypes.h>
#include <stdio.h>
#include <stdlib.h>
#include "gaffcurrant.h"

int main(int count, char **words)
{
    static uint8_t text[1 << 24];
    struct gaffcurrant controller = {0};
    uint32_t line, states, inputs, turn = 0, rank, same;
    FILE *file = count == 2 ? fopen(words[1], "rb") : NULL;
    if (!file) return 2;
    size_t length = fread(text, 1, sizeof text, file);
    fclose(file);
    int32_t status = gaffcurrant_open(&controller, text, length, &line);
    if (status != GAFFCURRANT_OPEN) {
        printf("open %" PRId32 " line %" PRIu32 "\n", status, line);
        return 1;
    }
    if (gaffcurrant_sizes(&controller, &states, &inputs)) return 1;
    char words_of_line[300];
    for (int sample = 0; fgets(words_of_line, sizeof words_of_line, stdin); sample++) {
        int64_t state[6], input[3] = {77, 77, 77};
        char *rest = words_of_line;
        for (uint32_t i = 0; i < states; i++) state[i] = strtoll(rest, &rest, 10);
        int32_t visit = sample ? gaffcurrant_visit(&controller, state, states, &turn) : 0;
        /* A visit of a wrong size leaves the turn, and tells it. */
        if (gaffcurrant_visit(&controller, state, states + 1, &same) != GAFFCURRANT_WRONG_SIZE || same != turn)
            return 1;
        int32_t reply = gaffcurrant_control(&controller, state, states, input, inputs);
        if ((gaffcurrant_rank(&controller, state, states, &rank) == 1) != (reply >= 0)) return 1;
        printf("%" PRId32 " %" PRIu32 " %" PRId32 " %" PRIu32, visit, turn, reply, rank);
        for (uint32_t j = 0; j < inputs; j++)
            if (reply == GAFFCURRANT_APPLY) printf(" %" PRId64, input[j]);
            else if (input[j] != 77) return 1;
        puts("");
    }
    uint32_t turns = 0;
    while (gaffcurrant_begin_turn(&controller, turns) == 0) turns++;
    printf("turns %" PRIu32 "\n", turns);
    gaffcurrant_close(&controller);
    return gaffcurrant_begin_turn(&controller, 0) != GAFFCURRANT_CLOSED;
}

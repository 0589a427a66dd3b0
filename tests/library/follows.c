/* By a text: reads a state, inputs and a next state, one line each, and prints for each line what gaffcurrant_follows
   answers. */
#include <inttypes.h>
#include <stdio.h>
#include <stdlib.h>
#include "gaffcurrant.h"

static const int32_t WRONG = GAFFCURRANT_WRONG_SIZE;

int main(int count, char **words)
{
    static uint8_t text[1 << 24];
    struct gaffcurrant controller = {0};
    uint32_t line, states, inputs;
    FILE *file = count == 2 ? fopen(words[1], "rb") : NULL;
    if (!file) return 2;
    size_t length = fread(text, 1, sizeof text, file);
    fclose(file);
    int32_t status = gaffcurrant_open(&controller, text, length, &line);
    if (status != GAFFCURRANT_OPEN) {
        printf("open %" PRId32 " line %" PRIu32 "\n", status, line);
        return 1;
    }
    if (gaffcurrant_sizes(&controller, &states, &inputs)) return 1;
    char words_of_line[500];
    while (fgets(words_of_line, sizeof words_of_line, stdin)) {
        int64_t state[6], input[3], next[6];
        char *rest = words_of_line;
        for (uint32_t i = 0; i < states; i++) state[i] = strtoll(rest, &rest, 10);
        for (uint32_t j = 0; j < inputs; j++) input[j] = strtoll(rest, &rest, 10);
        for (uint32_t i = 0; i < states; i++) next[i] = strtoll(rest, &rest, 10);
        printf("%" PRId32 "\n", gaffcurrant_follows(&controller, state, states, input, inputs, next, states));
        /* Any other number of states, inputs or next states is a wrong size, whatever the numbers are. */
        for (uint32_t n = 0; n <= 6; n++)
            for (uint32_t m = 0; m <= 3; m++)
                if (n != states
                    && (gaffcurrant_follows(&controller, state, n, input, m, next, states) != WRONG
                        || gaffcurrant_follows(&controller, state, states, input, m, next, n) != WRONG))
                    return 1;
                else if (m != inputs
                         && gaffcurrant_follows(&controller, state, states, input, m, next, states) != WRONG)
                    return 1;
    }
    gaffcurrant_close(&controller);
    return gaffcurrant_follows(&controller, NULL, 0, NULL, 0, NULL, 0) != GAFFCURRANT_CLOSED;
}

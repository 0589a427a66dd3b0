/* By a table: reads states, one a line, and prints for each the reply, the rank and the inputs to apply, as `1 12 100
   -3`. Then it asks for all at once, and prints whether that told the same. */
#include <inttypes.h>
#include <stdio.h>
#include <stdlib.h>
#include <string.h>
#include "gaffcurrant.h"

enum { MOST = 1 << 16 };

static int64_t state[MOST][6], input[MOST][3], states[MOST * 6], inputs[MOST * 3];
static int32_t reply[MOST], replies[MOST];

/* The bytes of a file. */
static uint8_t *bytes_of(const char *name, size_t *length)
{
    FILE *file = fopen(name, "rb");
    if (!file || fseek(file, 0, SEEK_END)) exit(2);
    *length = (size_t)ftell(file);
    rewind(file);
    uint8_t *bytes = malloc(*length ? *length : 1);
    if (!bytes || fread(bytes, 1, *length, file) != *length) exit(2);
    fclose(file);
    return bytes;
}

static void print_answer(int32_t answer, uint32_t rank, const int64_t *values, uint32_t count)
{
    printf("%" PRId32 " %" PRIu32, answer, rank);
    for (uint32_t j = 0; j < count; j++) printf(" %" PRId64, values[j]);
    puts("");
}

int main(int count, char **words)
{
    struct gaffcurrant controller = {0};
    uint32_t line = 7, state_count = 7, input_count = 7, rank = 7;
    size_t length, many = 0;
    uint8_t *text = bytes_of(words[1], &length);
    int32_t status = gaffcurrant_open(&controller, text, length, &line);
    free(text);
    if (count != 2 || status != GAFFCURRANT_OPEN) {
        printf("open %" PRId32 " line %" PRIu32 "\n", status, line);
        return 1;
    }
    if (gaffcurrant_sizes(&controller, &state_count, &input_count)) return 1;
    char words_of_line[300];
    while (many < MOST && fgets(words_of_line, sizeof words_of_line, stdin)) {
        char *rest = words_of_line;
        for (uint32_t i = 0; i < state_count; i++) state[many][i] = strtoll(rest, &rest, 10);
        many++;
    }
    for (size_t k = 0; k < many; k++) {
        reply[k] = gaffcurrant_control(&controller, state[k], state_count, input[k], input_count);
        int32_t ranked = gaffcurrant_rank(&controller, state[k], state_count, &rank);
        if ((ranked == 1) != (reply[k] >= 0) || (ranked != 1 && ranked != -1)) return 1;
        print_answer(reply[k], rank, input[k], reply[k] == GAFFCURRANT_APPLY ? input_count : 0);
        memcpy(states + k * state_count, state[k], state_count * sizeof *states);
    }
    /* All at once: the same replies, the same inputs, and no other number is written. */
    for (size_t k = 0; k < MOST * 3; k++) inputs[k] = 77;
    for (size_t k = 0; k < MOST; k++) replies[k] = 77;
    status = gaffcurrant_control_each(&controller, states, many * state_count, inputs, many * input_count, replies,
                                      many);
    int is_same = status == 0;
    for (size_t k = 0; k < many; k++) {
        is_same = is_same && replies[k] == reply[k];
        for (uint32_t j = 0; j < input_count; j++)
            is_same = is_same && inputs[k * input_count + j] == (reply[k] == GAFFCURRANT_APPLY ? input[k][j] : 77);
    }
    for (size_t k = many * input_count; k < MOST * 3; k++) is_same = is_same && inputs[k] == 77;
    for (size_t k = many; k < MOST; k++) is_same = is_same && replies[k] == 77;
    gaffcurrant_close(&controller);
    puts(is_same ? "each the same" : "each differs");
    return 0;
}

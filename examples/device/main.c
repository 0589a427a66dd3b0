/* Reads states, one a line, and prints what to apply: the values of the inputs, `arrived` or `no row`. Ends with 1 and a line on standard error at the first
   line that is no state; where the header's numbers were changed; where a CHECKSUM is given and the header is of another table; and, of a header with
   ranks, where the rank doesn't fall as the table promises. */
#include <errno.h>
#include <inttypes.h>
#include <stdio.h>
#include <stdlib.h>
#include <string.h>
#include "control.c"

/* Whether a line has one whole number for each state, and nothing else. */
static int read_state(const char *line, int64_t state[])
{
    for (int i = 0; i < STATES; i++) {
        char *end;
        errno = 0;
        state[i] = strtoll(line, &end, 10);
        if (end == line || errno || !strchr(" \t\r\n", *end)) return 0;
        line = end;
    }
    return line[strspn(line, " \t\r\n")] == 0;
}

static int complain(const char *what)
{
    fprintf(stderr, "control: %s\n", what);
    return 1;
}

int main(int count, char *words[])
{
    int64_t state[STATES], input[INPUTS + 1] = {0};
    char line[STATES * 32 + 2];
    if (count > 2 || (count == 2 && strspn(words[1], "0123456789abcdef") != strlen(words[1]))) {
        complain("the one word is the checksum of the table, eight digits as 0a1b2c3d");
        return 2;
    }
    if (count == 2 && strtoul(words[1], NULL, 16) != CHECKSUM) return complain("the header is of another table");
    if (!is_intact()) return complain("the numbers of table.h aren't those that tools/header has written");
#if HAS_TURNS
    int has_begun = 0;
#endif
    while (fgets(line, sizeof line, stdin)) {
        if (!read_state(line, state)) {
            fprintf(stderr, "control: a state of this table is a line of %d whole numbers\n", STATES);
            return 1;
        }
#if HAS_TURNS
        if (has_begun) visit(state);
        has_begun = 1;
#endif
        int answer = control(state, input);
#if HAS_RANKS
        if (answer >= 0 && !falls(state)) return complain("the rank hasn't fallen as the table promises");
#endif
        if (answer == 1)
            for (int i = 0; i < INPUTS; i++) printf("%s%" PRId64, i ? " " : "", input[i]);
        puts(answer == 1 ? "" : answer == 0 ? "arrived" : "no row");
        if (fflush(stdout)) return complain("the answer couldn't be written");
    }
    return 0;
}

/* Opens and closes a table ROUNDS times, in turn with a cut text, and prints whether the memory that malloc has given
   is the same after each tenth. */
#include <malloc.h>
#include <stdio.h>
#include <stdlib.h>
#include "gaffcurrant.h"

int main(int count, char **words)
{
    static uint8_t text[1 << 22];
    FILE *file = count == 3 ? fopen(words[1], "rb") : NULL;
    if (!file) return 2;
    size_t length = fread(text, 1, sizeof text, file), rounds = strtoul(words[2], NULL, 10), before = 0;
    fclose(file);
    struct gaffcurrant c = {0};
    uint32_t line;
    int is_constant = 1;
    for (size_t k = 0; k < rounds; k++) {
        if (gaffcurrant_open(&c, text, length, &line)) return 1;
        if (k % 3 == 0) gaffcurrant_close(&c);
        if (k % 5 == 0 && gaffcurrant_open(&c, text, length / 2, &line) != GAFFCURRANT_MALFORMED) return 1;
        if (k % (rounds / 10) == 0) {
            gaffcurrant_close(&c);
            struct mallinfo2 now = mallinfo2();
            size_t held = now.uordblks + now.hblkhd;
            is_constant = is_constant && (k == 0 || held == before);
            before = held;
        }
    }
    gaffcurrant_close(&c);
    puts(is_constant ? "constant" : "growing");
    return !is_constant;
}

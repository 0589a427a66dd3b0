/* Opens a table, and prints the bytes that malloc has given for it. */
#include <stdio.h>
#include <stdlib.h>
#include "gaffcurrant.h"
#include "given.h"

int main(int count, char **words)
{
    FILE *file = count == 2 ? fopen(words[1], "rb") : NULL;
    uint8_t *text = malloc(64 << 20);
    if (!file || !text) return 2;
    size_t length = fread(text, 1, 64 << 20, file);
    fclose(file);
    struct gaffcurrant c = {0};
    uint32_t line;
    size_t before = given();
    if (gaffcurrant_open(&c, text, length, &line)) return 1;
    printf("%zu\n", given() - before);
    gaffcurrant_close(&c);
    return 0;
}

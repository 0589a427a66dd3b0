/* Opens a text, asks and closes in a thread that has KIB of stack and no more, with a page behind them that can't be
   touched: prints what opening answers and how many KiB were touched. */
#include <inttypes.h>
#include <pthread.h>
#include <stdio.h>
#include <stdlib.h>
#include <string.h>
#include <sys/mman.h>
#include "gaffcurrant.h"

enum { PAGE = 4096 };

static uint8_t text[1 << 22];
static size_t length;
static int32_t status;

static void *opens(void *unused)
{
    struct gaffcurrant c = {0};
    uint32_t line, rank, turn, states, inputs;
    int64_t state[6] = {0}, input[3] = {0};
    status = gaffcurrant_open(&c, text, length, &line);
    if (!gaffcurrant_sizes(&c, &states, &inputs)) {
        gaffcurrant_control(&c, state, states, input, inputs);
        gaffcurrant_follows(&c, state, states, input, inputs, state, states);
        gaffcurrant_rank(&c, state, states, &rank);
        gaffcurrant_visit(&c, state, states, &turn);
    }
    gaffcurrant_close(&c);
    return unused;
}

int main(int count, char **words)
{
    FILE *file = count == 3 ? fopen(words[1], "rb") : NULL;
    if (!file) return 2;
    length = fread(text, 1, sizeof text, file);
    fclose(file);
    size_t size = strtoul(words[2], NULL, 10) * 1024, untouched = 0;
    uint8_t *room = mmap(NULL, PAGE + size, PROT_READ | PROT_WRITE, MAP_PRIVATE | MAP_ANONYMOUS, -1, 0);
    if (room == MAP_FAILED || mprotect(room, PAGE, PROT_NONE)) return 2;
    uint8_t *stack = room + PAGE;
    memset(stack, 0xa5, size);
    pthread_attr_t attributes;
    pthread_t thread;
    if (pthread_attr_init(&attributes) || pthread_attr_setstack(&attributes, stack, size)) return 2;
    if (pthread_create(&thread, &attributes, opens, NULL) || pthread_join(thread, NULL)) return 2;
    while (untouched < size && stack[untouched] == 0xa5) untouched++;
    printf("%" PRId32 " %zu\n", status, (size - untouched + 1023) / 1024);
    return 0;
}

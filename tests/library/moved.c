/* Opens a table in one thread, asks in others, one after the other, and closes it in a last one: prints whether each
   was told the same. */
#include <pthread.h>
#include <stdio.h>
#include <stdlib.h>
#include <string.h>
#include "gaffcurrant.h"

static uint8_t text[1 << 22];
static size_t length;
static struct gaffcurrant c;
static int32_t status[3];
static int64_t input[3];

static void *opens(void *unused)
{
    uint32_t line;
    status[0] = gaffcurrant_open(&c, text, length, &line);
    return unused;
}

static void *asks(void *unused)
{
    int64_t state[2] = {395, 55};
    status[1] = gaffcurrant_control(&c, state, 2, input, 1);
    return unused;
}

static void *closes(void *unused)
{
    gaffcurrant_close(&c);
    status[2] = c.is_open;
    return unused;
}

static int alone(void *(*call)(void *))
{
    pthread_t thread;
    return pthread_create(&thread, NULL, call, NULL) || pthread_join(thread, NULL);
}

int main(int count, char **words)
{
    FILE *file = count == 2 ? fopen(words[1], "rb") : NULL;
    if (!file) return 2;
    length = fread(text, 1, sizeof text, file);
    fclose(file);
    if (alone(opens)) return 2;
    int is_same = status[0] == GAFFCURRANT_OPEN;
    for (int k = 0; k < 100; k++) {
        memset(input, 0, sizeof input), status[1] = 77;
        if (alone(asks)) return 2;
        is_same = is_same && status[1] == GAFFCURRANT_APPLY && input[0] == -20;
    }
    if (alone(closes)) return 2;
    puts(is_same && !status[2] ? "the same" : "differs");
    return !is_same;
}

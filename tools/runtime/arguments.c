/* The arguments and errno of a program that the kit builds for a processor other than x86-64, for which it has no such
   lines: its statements of these names (os/src/c.rt). Trusted: nothing proves these lines. */
#include <errno.h>
#include <stddef.h>
#include <stdint.h>
#include <string.h>
#include <sys/types.h>

enum { NO_SUCH = -1, NO_ROOM = -2 };

ssize_t rattle_arg(size_t number, uint8_t *buffer, size_t room);
int32_t rattle_errno(void);
void rattle_set_errno(int32_t error);

static size_t arguments;
static char **argument;

/* glibc hands the arguments of main to each constructor. */
__attribute__((constructor)) static void keep(int count, char **words)
{
    arguments = count > 0 ? (size_t)count : 0;
    argument = words;
}

/* The length of an argument, whose bytes are then in the buffer; or why they aren't: at NO_ROOM the buffer is full of
   its first ones. */
ssize_t rattle_arg(size_t number, uint8_t *buffer, size_t room)
{
    if (number >= arguments || argument[number] == NULL) return NO_SUCH;
    size_t length = strlen(argument[number]);
    memcpy(buffer, argument[number], length < room ? length : room);
    return length <= room ? (ssize_t)length : NO_ROOM;
}

int32_t rattle_errno(void)
{
    return errno;
}

void rattle_set_errno(int32_t error)
{
    errno = error;
}

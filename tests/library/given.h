/* The bytes that malloc has given and that weren't freed. */
#include <malloc.h>
#include <stddef.h>

static size_t given(void)
{
    struct mallinfo2 now = mallinfo2();
    return now.uordblks + now.hblkhd;
}

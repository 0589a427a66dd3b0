/* Prints the version of the header, and that of the library. */
#include <inttypes.h>
#include <stdio.h>
#include "gaffcurrant.h"

int main(void)
{
    printf("%d\n%" PRIu32 "\n", GAFFCURRANT_VERSION, gaffcurrant_version());
    return 0;
}

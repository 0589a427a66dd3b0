// The header in C++: the calls are found by their C names, and a controller begins as {}.
#include "gaffcurrant.h"

int main()
{
    gaffcurrant controller = {};
    std::uint32_t line = 7;
    const std::uint8_t text[] = {'t'};
    std::int32_t status = gaffcurrant_open(&controller, text, sizeof text, &line);
    gaffcurrant_close(&controller);
    return status == GAFFCURRANT_MALFORMED && line == 1 && !controller.is_open ? 0 : 1;
}

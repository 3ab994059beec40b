/* The version of the header that the library was built with. */
#include "jalwedd.h"

uint32_t jalwedd_version(void)
{
    return JALWEDD_VERSION_MAJOR << 16 | JALWEDD_VERSION_MINOR << 8 | JALWEDD_VERSION_PATCH;
}

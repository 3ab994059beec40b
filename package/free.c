/* jalwedd_free does nothing for NULL, as free does. The function that the crate exports takes a reference, which is
 * never null, so package/build renames it, and this one calls it. */
#include "jalwedd.h"

uint32_t rattle_jalwedd_free(jalwedd_handle *handle);

uint32_t jalwedd_free(jalwedd_handle *handle)
{
    return handle != NULL ? rattle_jalwedd_free(handle) : (uint32_t)JALWEDD_IS_EMPTY;
}

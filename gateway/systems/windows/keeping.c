/* (there is no service that has a folder: whoever starts the gateway by hand has one of his own, which isn't the gateway's) */
#include "systems/keeping.h"

kept keeping_read(const char *name, uint8_t *bytes, size_t count)
{
    (void)name;
    (void)bytes;
    (void)count;
    return HAS_NO_FOLDER;
}

kept keeping_write(const char *name, const uint8_t *bytes, size_t count)
{
    (void)name;
    (void)bytes;
    (void)count;
    return HAS_NO_FOLDER;
}

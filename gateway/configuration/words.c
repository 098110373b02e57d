#include "configuration/words.h"

#include <string.h>

#include "ipx.h"

ipxr_setting_host library_address(const address *at)
{
    ipxr_setting_host it = {.port = at->port, .is_six = at->is_six};
    memcpy(it.four, at->host, sizeof it.four);
    for (size_t k = 0; k < 8; k++)
        it.six[k] = get16(at->six + 2 * k);
    return it;
}

const char *address_words(const address *at, char words[ADDRESS_ROOM])
{
    ipxr_setting_host it = library_address(at);
    words[ipxr_settings_address_words(&it, (uint8_t *)words, IPXR_LONGEST_ADDRESS)] = '\0';
    return words;
}

/* The words of an address. */
#ifndef WORDS_H
#define WORDS_H

#include "ipxr_settings.h"
#include "systems/address.h"

enum { ADDRESS_ROOM = IPXR_LONGEST_ADDRESS + 1 /* bytes of an address in words, with the 0 behind */ };

/* An address as the library has it. */
ipxr_setting_host library_address(const address *at);

/* The words of an address, with its port. */
const char *address_words(const address *at, char words[ADDRESS_ROOM]);

#endif

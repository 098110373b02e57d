#include "systems/machine.h"

#include "systems/windows/net.h"

/* Windows' number of the machine, which it makes when it is installed. */
static const char PLACE[] = "SOFTWARE\\Microsoft\\Cryptography", NAME[] = "MachineGuid";

void machine_words(char *words, size_t room)
{
    DWORD size = (DWORD)room;
    if (RegGetValueA(HKEY_LOCAL_MACHINE, PLACE, NAME, RRF_RT_REG_SZ, NULL, words, &size) == ERROR_SUCCESS)
        return;
    if (gethostname(words, (int)room) != 0)
        words[0] = '\0';
    words[room - 1] = '\0';
}

#include "systems/machine.h"

#include <stdbool.h>
#include <stdio.h>
#include <string.h>
#include <unistd.h>

/* The first line of a file, without its end. Returns whether there is one. */
static bool read_first_line(const char *name, char *words, size_t room)
{
    FILE *file = fopen(name, "r");
    bool is_read = file != NULL && fgets(words, (int)room, file) != NULL;
    if (file != NULL)
        fclose(file);
    if (is_read)
        words[strcspn(words, "\n")] = '\0';
    return is_read && words[0] != '\0';
}

/* (systemd's number of the machine; its manual page wants it to be shown to nobody but through a hash with a key) */
void machine_words(char *words, size_t room)
{
    if (read_first_line("/etc/machine-id", words, room))
        return;
    if (gethostname(words, room) != 0)
        words[0] = '\0';
    words[room - 1] = '\0';
}

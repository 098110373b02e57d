#include "configuration/reload.h"

#include <stdio.h>
#include <stdlib.h>
#include <string.h>

#include "configuration/change.h"
#include "monitoring/note.h"
#include "monitoring/output.h"
#include "systems/system.h"

enum { SUMMARY_ROOM = 288 };

static const char *name;

/* Settings that are read, while the gateway has those of the other. */
static settings rooms[2];

void reload_from(const char *configuration)
{
    name = configuration;
}

/* The room that the gateway's settings aren't in. */
static settings *free_room(const gateway *it)
{
    return &rooms[it->networks[0].set == rooms[0].networks];
}

/* Reads the file. Returns how many faults there are; they are written to where the caller frees them. */
static size_t read_anew(settings *set, char **faults)
{
    size_t length = 0;
    FILE *complaints = text_open(faults, &length), *file = complaints != NULL ? file_open_at_once(name) : NULL;
    size_t count = 1;
    if (file != NULL)
        count = settings_read(set, file, name, complaints);
    else if (complaints != NULL)
        fprintf(complaints, "%s: can't be opened: %s\n", name, fault_words());
    if (file != NULL)
        fclose(file);
    if (complaints != NULL)
        text_close(complaints, faults, &length);
    return count;
}

/* Complains of each line of a text. */
static void complain_lines(char *text)
{
    char *rest;
    for (char *line = strtok_r(text, "\n", &rest); line != NULL; line = strtok_r(NULL, "\n", &rest))
        complain("%s", line);
}

/* What was done, in words. */
static void sum_up(const changed *what, char words[SUMMARY_ROOM])
{
    if (!has_changed(what)) {
        snprintf(words, SUMMARY_ROOM, "%s was read again: nothing changed", name);
        return;
    }
    const char *router = what->is_new_router ? "; the router starts afresh" : "", *keys = what->keys > 0 ? ", other keys" : "";
    snprintf(words, SUMMARY_ROOM, "%.90s was read again: networks and links: %zu added, %zu removed, %zu with another link, "
             "%zu with other clients, %zu with other sockets or edge%s%s", name, what->added, what->removed, what->reopened, what->clients,
             what->sockets, keys, router);
}

/* Reads and changes. Returns whether that was done, and tells what; else what is wrong, in text that the caller frees, or NULL where there
 * was no memory. */
static bool try_reload(gateway *it, char words[SUMMARY_ROOM], size_t *faults, char **text)
{
    settings *set = free_room(it);
    *text = NULL;
    if (read_anew(set, text) > 0)
        return false;
    changed what = gateway_change(it, set);
    if (what.is_refused) {
        free(*text);
        *text = NULL;
        return false;
    }
    *faults = what.faults;
    sum_up(&what, words);
    event("%s", words);
    return true;
}

static const char REFUSED[] = "out of memory: nothing changed";

/* Complains of what is wrong, and frees it. */
static void complain_of(char *text)
{
    if (text != NULL)
        complain_lines(text);
    else
        complain("%s: %s", name, REFUSED);
    free(text);
}

void reload(gateway *it)
{
    char words[SUMMARY_ROOM], *text;
    size_t faults = 0;
    if (try_reload(it, words, &faults, &text))
        free(text);
    else
        complain_of(text);
}

void reload_for(gateway *it, viewer *v)
{
    static const char FOR_ALL[] = {FOR_OUTPUT};
    char words[SUMMARY_ROOM], *text;
    size_t faults = 0;
    if (try_reload(it, words, &faults, &text)) {
        viewer_add(v, FOR_ALL, sizeof FOR_ALL);
        viewer_say(v, "%s", words);
        if (faults > 0)
            viewer_say(v, "%zu %s be opened, which is tried again each second", faults, faults == 1 ? "link can't" : "links can't");
        viewer_end(v, faults == 0);
        free(text);
        return;
    }
    if (text != NULL)
        viewer_complain_of(v, text);
    else
        viewer_complain(v, "%s: %s", name, REFUSED);
    complain_of(text);
}

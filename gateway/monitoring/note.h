/* What is told on standard output: the start, reports, and with --log a line for each event. */
#ifndef NOTE_H
#define NOTE_H

#include <stdbool.h>
#include <stddef.h>
#include <stdint.h>

/* Room for a node or an address in words, with the 0 behind. */
#define WORDS 40

/* From now on events are told. */
void note_events(void);
bool notes_events(void);

/* A line of an event, with the seconds of the clock before it: where events are told, and one that is always told. */
void note(const char *format, ...);
void event(const char *format, ...);

/* A node by its twelve digits; network, node and socket at a place of a header. */
const char *node_words(const uint8_t *node, char words[WORDS]);
const char *address_at(const uint8_t *bytes, char words[WORDS]);

/* The words of a number of the library. */
const char *answer_words(int32_t answer, char words[WORDS]);

#endif

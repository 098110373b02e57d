/* The date in the words of HTTP. */
#ifndef DATE_H
#define DATE_H

enum { DATE_ROOM = 32 /* bytes of its words, with the 0 behind */ };

/* The date now, such as Sun, 06 Nov 1994 08:49:37 GMT. (the C library's own would read which zone this is) */
const char *date_words(char words[DATE_ROOM]);

#endif

/* The switches of the made-up machine. */
#ifndef SWITCHES_H
#define SWITCHES_H

/* One that was called answers, ends, or says something. */
void switch_acts(void);

#endif

/* Faults that have no number of errno's: each has one above all of these, by which fault_words finds its words. */
#ifndef FAULTS_H
#define FAULTS_H

/* The number of a fault that is told in words, which are kept for a while: until there were sixteen others. Of what isn't visible ASCII each
 * byte is a blank. */
int fault_of_words(const char *words);

/* The number of a fault of Windows' own, by the number that Windows has for it. */
int fault_of_windows(unsigned long number);

#endif

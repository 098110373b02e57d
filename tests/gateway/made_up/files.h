/* The files of the made-up machine. */
#ifndef FILES_H
#define FILES_H

#include <stdbool.h>
#include <stddef.h>
#include <stdint.h>
#include <stdio.h>

/* Files that the gateway has open; and one of the test's own, which may be NULL, is closed. */
size_t files_open(void);
void own_close(FILE *file);

/* From now on orders wait for the gateway: to end, to report, to read its configuration anew. */
void order_end(void);
void order_report(void);
void order_read(void);

/* Whether it may be the gateway's key of nodes: what it has read or written last, or another one where nothing is kept. */
bool is_right_key(const uint8_t key[16]);

/* A new start: no order waits. */
void orders_begin(void);

#endif

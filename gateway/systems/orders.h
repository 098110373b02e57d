/* Who runs the gateway gives it orders: to end, to report, or to read its configuration anew. */
#ifndef ORDERS_H
#define ORDERS_H

#include <stdbool.h>

/* From now on orders are heard. */
void orders_hear(void);

bool is_told_to_end(void);

/* Whether somebody has asked for a report since this was asked last. */
bool is_asked_to_report(void);

/* Whether somebody has told it to read its configuration anew since this was asked last. */
bool is_told_to_read(void);

#endif

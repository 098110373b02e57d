/* Those who ask at the status socket: they ask everything, read slowly, or vanish. */
#ifndef VIEWERS_H
#define VIEWERS_H

void viewers_act(void);

/* Somebody asks the gateway to read its configuration anew. */
void somebody_reloads(void);

#endif

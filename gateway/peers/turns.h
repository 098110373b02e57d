/* What becomes of links by peers as time passes: what was counted there, and who comes and goes. */
#ifndef PEERS_TURNS_H
#define PEERS_TURNS_H

struct gateway;

/* What is to go out goes, on all of them. */
void peers_push_all(struct gateway *it);

/* After what was heard in a turn; and after a second. */
void peers_turn(struct gateway *it);
void peers_second(struct gateway *it);

#endif

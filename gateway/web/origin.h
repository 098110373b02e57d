/* Who may open a WebSocket from a browser: a page, by where it comes from. */
#ifndef ORIGIN_H
#define ORIGIN_H

#include "configuration/settings.h"
#include "web/request.h"

/* Whether a request comes from a page of the same host, from one that the configuration names, or from a program that is no browser. */
bool origin_is_let_in(const network_setting *set, const request *asked);

#endif

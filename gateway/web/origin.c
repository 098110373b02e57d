#include "web/origin.h"

#include <string.h>

/* The host of an address with a port or without one. (of IPv6 it stands in brackets) */
static piece host_of(piece at)
{
    const char *end = at.length > 0 && at.text[0] == '[' ? memchr(at.text, ']', at.length) : NULL;
    if (end != NULL)
        return (piece){at.text, (size_t)(end - at.text) + 1};
    end = at.length > 0 ? memchr(at.text, ':', at.length) : NULL;
    return (piece){at.text, end != NULL ? (size_t)(end - at.text) : at.length};
}

/* What an origin names behind its scheme; none where it names no host. */
static piece named_by(const piece *origin)
{
    static const char MARK[] = "://";
    size_t k = 0;
    while (k + sizeof MARK - 1 <= origin->length && memcmp(origin->text + k, MARK, sizeof MARK - 1) != 0)
        k++;
    k += sizeof MARK - 1;
    return k < origin->length ? (piece){origin->text + k, origin->length - k} : (piece){NULL, 0};
}

static bool is_of_same_host(const request *asked)
{
    char host[HOST_ROOM];
    piece own = host_of(asked->host), other = host_of(named_by(&asked->origin));
    if (own.length == 0 || own.length >= sizeof host)
        return false;
    memcpy(host, own.text, own.length);
    host[own.length] = '\0';
    return piece_is_like(&other, host);
}

bool origin_is_let_in(const network_setting *set, const request *asked)
{
    if (asked->origin.text == NULL || is_of_same_host(asked))
        return true;
    for (size_t k = 0; k < set->origin_count; k++)
        if (strcmp(set->origins[k], "*") == 0 || piece_is_like(&asked->origin, set->origins[k]))
            return true;
    return false;
}

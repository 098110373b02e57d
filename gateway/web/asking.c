#include "web/asking.h"

#include <stdio.h>
#include <string.h>

#include "web/handshake.h"
#include "web/origin.h"
#include "web/response.h"
#include "web/web.h"

/* The paths of links, in front of the number of their network. */
static const char OF_TUNNEL[] = "/ipx/", OF_FRAMES[] = "/ethernet/";

enum { MOST_DIGITS = 8, BASE = 16 };

/* What he is answered, if he isn't let in. */
typedef struct refusal {
    int status;
    const char *fields; /* or NULL */
    const char *why;
} refusal;

static const refusal LET_IN = {.status = HTTP_SWITCHING};

/* ---- Paths ---- */

static bool begins(const piece *path, const char *front)
{
    return path->length > strlen(front) && memcmp(path->text, front, strlen(front)) == 0;
}

/* The value of a hexadecimal digit, or one that is none. */
static uint32_t digit(char letter)
{
    static const char DIGITS[] = "0123456789abcdef0123456789ABCDEF";
    const char *at = letter != '\0' ? strchr(DIGITS, letter) : NULL;
    return at != NULL ? (uint32_t)(at - DIGITS) % BASE : BASE;
}

/* The number of a network; 0 where it is none. (zeros in front don't matter) */
static uint32_t number_of(piece digits)
{
    uint32_t number = 0;
    while (digits.length > 1 && digits.text[0] == '0')
        digits = (piece){digits.text + 1, digits.length - 1};
    for (size_t k = 0; k < digits.length; k++) {
        uint32_t next = digit(digits.text[k]);
        if (next == BASE || digits.length > MOST_DIGITS)
            return 0;
        number = number << 4 | next;
    }
    return number;
}

/* The link at a path, or NULL. */
static web *link_at(const page *it)
{
    const piece *path = &it->asked.path;
    bool is_tunnel = begins(path, OF_TUNNEL);
    if (!is_tunnel && !begins(path, OF_FRAMES))
        return NULL;
    size_t front = strlen(is_tunnel ? OF_TUNNEL : OF_FRAMES);
    return web_at(it->at, is_tunnel, number_of((piece){path->text + front, path->length - front}));
}

/* ---- Requests ---- */

/* What is wrong with a request, wherever it goes. */
static refusal fault_of(const request *asked)
{
    if (!piece_is(&asked->method, "GET"))
        return (refusal){HTTP_NOT_ALLOWED, "Allow: GET\r\n", "Expected GET."};
    if (asked->minor == 0)
        return (refusal){HTTP_BAD, NULL, "Expected HTTP/1.1."};
    if (asked->has_body)
        return (refusal){HTTP_BAD, NULL, "Expected a request without a body."};
    return LET_IN;
}

/* What is wrong with one for a WebSocket. */
static refusal fault_of_upgrade(const request *asked, char accept[ACCEPT_ROOM])
{
    static const char WANTED[] = "Upgrade: websocket\r\nConnection: Upgrade\r\n", VERSION[] = "Sec-WebSocket-Version: 13\r\n";
    if (!asked->wants_websocket || !asked->wants_upgrade)
        return (refusal){HTTP_UPGRADE_REQUIRED, WANTED, "Expected a WebSocket: Upgrade: websocket, and Connection: Upgrade."};
    if (!piece_is(&asked->version, "13"))
        return (refusal){asked->version.text == NULL ? HTTP_BAD : HTTP_UPGRADE_REQUIRED, VERSION, "Expected Sec-WebSocket-Version: 13."};
    if (asked->key.text == NULL || !handshake_accept(&asked->key, accept))
        return (refusal){HTTP_BAD, NULL, "Expected a Sec-WebSocket-Key of sixteen bytes in base64."};
    return LET_IN;
}

/* Why somebody isn't let in at a link; then nothing is done. Else he has joined. */
static refusal join(page *it, web *at)
{
    static const refusal FULL = {HTTP_UNAVAILABLE, "Retry-After: 5\r\n", "Too many are connected here: try again later."};
    if (!origin_is_let_in(at->set, &it->asked))
        return (refusal){HTTP_FORBIDDEN, NULL, "Pages of this origin aren't let in: the gateway's line `origins` names those that are."};
    return web_lets_join(at, it) && web_join(at, it) ? LET_IN : FULL;
}

static refusal answer_to(page *it, char accept[ACCEPT_ROOM])
{
    refusal why = fault_of(&it->asked);
    web *at = link_at(it);
    if (why.status == HTTP_SWITCHING && at == NULL)
        why = (refusal){HTTP_NOT_FOUND, NULL, "Nothing is here: expected /ipx/NETWORK or /ethernet/NETWORK of a network that has `web` here."};
    if (why.status == HTTP_SWITCHING)
        why = fault_of_upgrade(&it->asked, accept);
    return why.status == HTTP_SWITCHING ? join(it, at) : why;
}

/* ---- Answers ---- */

static void refuse(page *it, const refusal *why)
{
    char text[RESPONSE_ROOM];
    page_tell(it, text, response_write(text, why->status, why->fields, why->why));
    page_end(it, CLOSED_WITHOUT);
}

/* (what came behind the request is heard from now on. Who offers a protocol may take it amiss if none is chosen: binary is what is spoken here,
 * by whatever name) */
static void let_in(page *it, const char *accept)
{
    char text[RESPONSE_ROOM];
    int length = snprintf(text, sizeof text, "HTTP/1.1 101 Switching Protocols\r\nUpgrade: websocket\r\nConnection: Upgrade\r\n"
                          "Sec-WebSocket-Accept: %s\r\n%s\r\n", accept,
                          it->asked.offers_binary ? "Sec-WebSocket-Protocol: binary\r\n" : "");
    page_tell(it, text, (size_t)length);
    it->taken = it->asked.seen;
    it->is_behind = it->in > it->taken;
}

static void answer(page *it)
{
    char accept[ACCEPT_ROOM];
    refusal why = answer_to(it, accept);
    if (why.status == HTTP_SWITCHING)
        let_in(it, accept);
    else
        refuse(it, &why);
}

void asking_hear(page *it)
{
    static const refusal WRONG = {.why = "This isn't a request of HTTP/1.1 that is heard here."};
    refusal why = WRONG;
    if (!page_receives(it))
        return;
    why.status = request_read(&it->asked, (const char *)it->coming, it->in);
    if (why.status == HTTP_OK)
        answer(it);
    else if (why.status != 0)
        refuse(it, &why);
    page_push(it);
}

#include "monitoring/reply.h"

#include <string.h>

#include "monitoring/date.h"
#include "monitoring/page_text.h"
#include "monitoring/web_address.h"

/* ---- Which answer ---- */

/* What is where. */
static const struct {
    const char *path;
    reply_body body;
    const char *type;
} PLACES[] = {
    {"/", OF_PAGE, "text/html; charset=utf-8"},
    {"/status.json", OF_STATUS, "application/json"},
    {"/metrics", OF_COUNTS, "text/plain; version=0.0.4; charset=utf-8"},
};
enum { PLACE_COUNT = sizeof PLACES / sizeof *PLACES };

/* What is said where there is nothing else, and what stands in the head beside that. */
static const struct {
    int status;
    const char *reason, *sentence, *fields;
} REFUSALS[] = {
    {HTTP_NOT_FOUND, "Not Found", "Here are only /, /status.json and /metrics.", ""},
    {HTTP_NOT_ALLOWED, "Method Not Allowed", "Here one can only look: by GET or HEAD.", "Allow: GET, HEAD\r\n"},
    {HTTP_FORBIDDEN, "Forbidden", "This is the page of a gateway, which answers to addresses in numbers, to localhost, and to the names "
     "that are written behind the address of --status-web; the request names another host.", ""},
    {HTTP_HEAD_TOO_LONG, "Request Header Fields Too Large", "The head of the request has more than 8 KB.", ""},
    {HTTP_OTHER_VERSION, "HTTP Version Not Supported", "Here one speaks HTTP/1.1.", ""},
    {HTTP_BAD, "Bad Request", "This is no request of HTTP/1.1.", ""},
};
enum { LAST_REFUSAL = sizeof REFUSALS / sizeof *REFUSALS - 1 };

static size_t place_of(const request *to)
{
    size_t k = 0;
    while (k < PLACE_COUNT && !piece_is(&to->path, PLACES[k].path))
        k++;
    return k;
}

/* The status of the answer. (who speaks HTTP/1.0 may name no host; a browser always does) */
static int status_for(const request *to, int status, const char *words)
{
    bool is_here = to->host.text == NULL || web_address_has(words, &to->host);
    if (status != HTTP_OK)
        return status;
    if (!is_here)
        return HTTP_FORBIDDEN;
    if (!piece_is(&to->method, "GET") && !piece_is(&to->method, "HEAD"))
        return HTTP_NOT_ALLOWED;
    return place_of(to) < PLACE_COUNT ? HTTP_OK : HTTP_NOT_FOUND;
}

/* ---- Heads ---- */

/* What each head has: nothing is kept anywhere, nor shown inside of another's page, nor taken for something else than it says it is. */
static void put_fields(sheet *head)
{
    char date[DATE_ROOM];
    sheet_put(head, "Date: %s\r\nConnection: close\r\nCache-Control: no-store\r\nX-Content-Type-Options: nosniff\r\n", date_words(date));
    sheet_put(head, "Cross-Origin-Resource-Policy: same-origin\r\nReferrer-Policy: no-referrer\r\n");
    sheet_put(head, "Content-Security-Policy: %s\r\n", PAGE_POLICY);
}

static void put_refusal(sheet *head, int status, bool is_head)
{
    size_t k = 0;
    while (k < LAST_REFUSAL && REFUSALS[k].status != status)
        k++;
    sheet_put(head, "HTTP/1.1 %d %s\r\n%sContent-Type: text/plain; charset=utf-8\r\nContent-Length: %zu\r\n", REFUSALS[k].status,
              REFUSALS[k].reason, REFUSALS[k].fields, strlen(REFUSALS[k].sentence) + 1);
    put_fields(head);
    sheet_put(head, "\r\n%s%s", is_head ? "" : REFUSALS[k].sentence, is_head ? "" : "\n");
}

static size_t bytes_of_page(void)
{
    size_t sum = 0;
    for (size_t k = 0; k < PAGE_LINE_COUNT; k++)
        sum += strlen(PAGE_LINES[k]) + 1;
    return sum;
}

static void put_head(const reply *it, const char *type, sheet *head)
{
    sheet_put(head, "HTTP/1.1 200 OK\r\nContent-Type: %s\r\n", type);
    if (it->body == OF_PAGE)
        sheet_put(head, "Content-Length: %zu\r\n", bytes_of_page());
    else if (it->is_chunked)
        sheet_put(head, "Transfer-Encoding: chunked\r\n");
    put_fields(head);
    sheet_put(head, "\r\n");
}

void reply_begin(reply *it, const request *to, int status, const char *words, sheet *head)
{
    bool is_head = to->method.text != NULL && piece_is(&to->method, "HEAD");
    memset(it, 0, sizeof *it);
    status = status_for(to, status, words);
    if (status != HTTP_OK) {
        put_refusal(head, status, is_head);
        return;
    }
    size_t place = place_of(to);
    it->body = PLACES[place].body;
    it->is_chunked = it->body != OF_PAGE && to->minor > 0;
    put_head(it, PLACES[place].type, head);
    if (is_head)
        it->body = OF_NOTHING;
    it->is_chunked = it->is_chunked && !is_head;
    shown_begin_with_events(&it->so_far);
}

/* ---- Bodies ---- */

bool reply_next(gateway *of, reply *it, sheet *s)
{
    switch (it->body) {
    case OF_PAGE:
        if (it->line < PAGE_LINE_COUNT)
            sheet_put(s, "%s\n", PAGE_LINES[it->line++]);
        return it->line < PAGE_LINE_COUNT;
    case OF_STATUS:
        s->form = AS_JSON;
        return shown_next(of, &it->so_far, s);
    case OF_COUNTS:
        s->form = AS_PROMETHEUS;
        return shown_next(of, &it->so_far, s);
    default:
        return false;
    }
}

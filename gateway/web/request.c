/* Lines end by CR and LF, and nothing else ends one. A line is read once it is whole, so that what is wrong with it is known at once, however
 * slowly the rest comes. What RFC 9112 lets a server take or refuse is refused: folded lines, blanks before a colon, bare CR or LF, and a field
 * twice that says one thing. */
#include "web/request.h"

#include <string.h>

/* Behind the method and the path of a first line. */
static const char VERSION[] = "HTTP/1.";

/* ---- Pieces ---- */

static char lower(char letter)
{
    return letter >= 'A' && letter <= 'Z' ? (char)(letter - 'A' + 'a') : letter;
}

bool piece_is(const piece *it, const char *text)
{
    return it->length == strlen(text) && memcmp(it->text, text, it->length) == 0;
}

static bool is_like(const char *one, const char *other, size_t length)
{
    size_t k = 0;
    while (k < length && lower(one[k]) == lower(other[k]))
        k++;
    return k == length;
}

bool piece_is_like(const piece *it, const char *text)
{
    return it->text != NULL && it->length == strlen(text) && is_like(it->text, text, it->length);
}

static bool is_blank(char letter)
{
    return letter == ' ' || letter == '\t';
}

static piece without_front(piece it)
{
    while (it.length > 0 && is_blank(it.text[0]))
        it = (piece){it.text + 1, it.length - 1};
    return it;
}

/* The same without blanks in front and behind. */
static piece trimmed(piece it)
{
    it = without_front(it);
    while (it.length > 0 && is_blank(it.text[it.length - 1]))
        it.length--;
    return it;
}

/* What is before the first of a letter, which goes off with that; all of it, where there is none. */
static piece cut(piece *rest, char at)
{
    const char *found = rest->length > 0 ? memchr(rest->text, at, rest->length) : NULL;
    size_t length = found != NULL ? (size_t)(found - rest->text) : rest->length, off = found != NULL ? length + 1 : length;
    piece first = {rest->text, length};
    *rest = (piece){rest->text + off, rest->length - off};
    return first;
}

/* Whether a list, with commas between its words, has a word. */
static bool has_word(piece list, const char *word)
{
    bool has = false;
    while (!has && list.length > 0) {
        piece next = trimmed(cut(&list, ','));
        has = piece_is_like(&next, word);
    }
    return has;
}

/* Whether a letter may stand in the name of a field or a method. */
static bool is_of_name(char letter)
{
    bool is_letter = lower(letter) >= 'a' && lower(letter) <= 'z', is_digit = letter >= '0' && letter <= '9';
    return is_letter || is_digit || (letter != '\0' && strchr("!#$%&'*+-.^_`|~", letter) != NULL);
}

static bool is_name(const piece *it)
{
    size_t k = 0;
    while (k < it->length && is_of_name(it->text[k]))
        k++;
    return k > 0 && k == it->length;
}

/* Whether no letter is one that no line may have: all that steers a terminal, but for tabs. */
static bool is_plain(const piece *it)
{
    size_t k = 0;
    while (k < it->length && ((unsigned char)it->text[k] >= ' ' || it->text[k] == '\t') && it->text[k] != 0x7F)
        k++;
    return k == it->length;
}

/* ---- The first line ---- */

/* The version, of which the number behind the point is told: HTTP_OK, or what is due. */
static int read_version(request *it, const piece *word)
{
    size_t front = sizeof VERSION - 1;
    bool is_one = word->length == front + 1 && memcmp(word->text, VERSION, front) == 0;
    if (!is_one || word->text[front] < '0' || word->text[front] > '9')
        return word->length > 5 && memcmp(word->text, VERSION, 5) == 0 ? HTTP_OTHER_VERSION : HTTP_BAD;
    it->minor = (unsigned)(word->text[front] - '0');
    return HTTP_OK;
}

static int read_first(request *it, piece line)
{
    it->method = cut(&line, ' ');
    piece target = cut(&line, ' ');
    it->path = cut(&target, '?');
    it->query = target;
    if (!is_name(&it->method) || it->path.length == 0 || it->path.text[0] != '/')
        return HTTP_BAD;
    return read_version(it, &line);
}

/* ---- Fields ---- */

/* A field that may be there once. */
static int take_once(piece *into, const piece *value)
{
    if (into->text != NULL)
        return HTTP_BAD;
    *into = *value;
    return HTTP_OK;
}

/* Whether a field announces a body. */
static bool announces_body(const piece *name, const piece *value)
{
    return piece_is_like(name, "transfer-encoding") || (piece_is_like(name, "content-length") && !piece_is(value, "0"));
}

static int take_field(request *it, const piece *name, const piece *value)
{
    const struct {
        const char *name;
        piece *into;
    } once[] = {{"host", &it->host}, {"origin", &it->origin}, {"sec-websocket-key", &it->key}, {"sec-websocket-version", &it->version}};
    for (size_t k = 0; k < sizeof once / sizeof *once; k++)
        if (piece_is_like(name, once[k].name))
            return take_once(once[k].into, value);
    if (piece_is_like(name, "connection"))
        it->wants_upgrade = it->wants_upgrade || has_word(*value, "upgrade");
    else if (piece_is_like(name, "upgrade"))
        it->wants_websocket = it->wants_websocket || has_word(*value, "websocket");
    else if (piece_is_like(name, "sec-websocket-protocol"))
        it->offers_binary = it->offers_binary || has_word(*value, "binary");
    else
        it->has_body = it->has_body || announces_body(name, value);
    return HTTP_OK;
}

static int read_field(request *it, piece line)
{
    bool has_colon = memchr(line.text, ':', line.length) != NULL;
    piece name = cut(&line, ':'), value = trimmed(line);
    return has_colon && is_name(&name) ? take_field(it, &name, &value) : HTTP_BAD;
}

/* ---- Lines ---- */

/* A line without its end: 0 where more is to come, HTTP_OK where the head ends with it. (empty lines before the first are nothing) */
static int read_line(request *it, const piece *line)
{
    if (!is_plain(line))
        return HTTP_BAD;
    if (it->method.text != NULL && line->length == 0)
        return it->minor > 0 && it->host.text == NULL ? HTTP_BAD : HTTP_OK;
    if (line->length == 0)
        return 0;
    int found = it->method.text == NULL ? read_first(it, *line) : read_field(it, *line);
    return found == HTTP_OK ? 0 : found;
}

/* The next line that is whole, without its end; it may be wrong, and end by LF alone. */
static bool next_line(request *it, const char *bytes, size_t count, piece *line)
{
    const char *start = bytes + it->seen, *end = count > it->seen ? memchr(start, '\n', count - it->seen) : NULL;
    if (end == NULL)
        return false;
    *line = (piece){start, (size_t)(end - start)};
    it->seen += line->length + 1;
    return true;
}

int request_read(request *it, const char *bytes, size_t count)
{
    int found = 0;
    piece line;
    while (found == 0 && next_line(it, bytes, count, &line)) {
        bool is_ended = line.length > 0 && line.text[line.length - 1] == '\r';
        line.length -= is_ended;
        found = is_ended ? read_line(it, &line) : HTTP_BAD;
    }
    return found == 0 && count >= REQUEST_ROOM ? HTTP_HEAD_TOO_LONG : found;
}

#include "links/remote.h"

#include <stdlib.h>
#include <string.h>

#include "systems/clock.h"

/* Milliseconds from one question for a name to the next. */
enum { MINUTE = 60000 };

/* Questions that may be under way: one for each link that names one machine, and as many that a reload has left to their threads; and MOST_OF_LINK
 * for each that names several, those that are left among them. So names that nobody knows keep no other link waiting. (where nobody answers each has
 * a thread and a file for long, and reloads would use up both) */
enum { MOST_OF_LINK = 8, MOST_OF_ONE = 2 * MOST_LINKS, MOST_OF_SEVERAL = MOST_OF_LINK * MOST_LINKS };

const char REMOTE_UNKNOWN[] = "no address of that name is known yet";

/* ---- Questions ---- */

/* What who asks and the thread that waits for the answer share. Whoever of them lets go last frees it. */
typedef struct question {
    char host[HOST_ROOM];
    wanted which;
    bool is_of_several, is_answered, is_left;
    answers found;
} question;

static size_t under_way[2]; /* of links that name one machine, and several; looked at by one at a time, too */

/* One more question is under way. Returns false where there are too many. */
static bool takes_place(bool is_of_several)
{
    resolver_lock();
    bool has_place = under_way[is_of_several] < (is_of_several ? MOST_OF_SEVERAL : MOST_OF_ONE);
    under_way[is_of_several] += has_place;
    resolver_unlock();
    return has_place;
}

static void give_place(bool is_of_several)
{
    resolver_lock();
    under_way[is_of_several]--;
    resolver_unlock();
}

static void run(void *given)
{
    question *it = given;
    bool is_of_several = it->is_of_several;
    answers found;
    resolver_ask(it->host, it->which, &found);
    resolver_lock();
    it->found = found;
    it->is_answered = true;
    bool is_left = it->is_left;
    resolver_unlock();
    if (is_left)
        free(it);
    give_place(is_of_several);
}

/* Datagrams go from an address to one of the same kind. */
static wanted wanted_by(const network_setting *set)
{
    if (set->type != LINK_QEMU_UDP)
        return ANY_ADDRESS;
    return set->local.is_six ? ADDRESS_OF_IPV6 : ADDRESS_OF_IPV4;
}

far_end far_end_of(const network_setting *set)
{
    return (far_end){has_name(set) ? set->host : "", set->remote, wanted_by(set), NULL};
}

/* The question for a name, that is under way; or NULL. */
static question *begin(const far_end *of)
{
    question *made = calloc(1, sizeof *made);
    if (made == NULL)
        return NULL;
    strcpy(made->host, of->host);
    made->which = of->which;
    made->is_of_several = of->asking != NULL;
    if (resolver_begin(run, made))
        return made;
    free(made);
    return NULL;
}

/* From now on a question is under way, or is no more. */
static void put(remote *it, question *made, size_t *asking)
{
    if (it->asking != NULL)
        --*it->asking;
    if (asking != NULL)
        ++*asking;
    it->question = made;
    it->asking = asking;
}

/* (where there is no memory, no thread or no place it is asked again with the next look) */
static void ask(remote *it, const far_end *of)
{
    bool is_of_several = of->asking != NULL;
    if ((is_of_several && *of->asking >= MOST_OF_LINK) || !takes_place(is_of_several))
        return;
    question *made = begin(of);
    if (made == NULL) {
        give_place(is_of_several);
        return;
    }
    put(it, made, of->asking);
    it->asked = clock_now();
}

void remote_end(remote *it)
{
    question *left = it->question;
    if (left == NULL)
        return;
    put(it, NULL, NULL);
    resolver_lock();
    left->is_left = true;
    bool is_answered = left->is_answered;
    resolver_unlock();
    if (is_answered)
        free(left);
}

/* Whether an answer has come; it is taken then. */
static bool takes_answer(remote *it, answers *found)
{
    if (it->question == NULL)
        return false;
    resolver_lock();
    bool is_answered = it->question->is_answered;
    *found = it->question->found;
    resolver_unlock();
    if (is_answered)
        remote_end(it);
    return is_answered;
}

/* ---- Addresses ---- */

/* From now on the address of a turn is in use. Returns whether it is another one. */
static bool use(remote *it, size_t turn, uint16_t port)
{
    address before = it->at;
    bool was_known = it->is_known;
    it->turn = turn;
    it->at = it->found.list[turn];
    it->at.port = port;
    it->is_known = true;
    return !was_known || !same_address(&before, &it->at);
}

/* Whether two addresses differ in their ports at most. */
static bool same_machine(const address *a, const address *b)
{
    address here = *a;
    here.port = b->port;
    return same_address(&here, b);
}

/* The turn of the address in use; the first where it isn't among those of the name. */
static size_t turn_of(const remote *it)
{
    for (size_t k = 0; it->is_known && k < it->found.count; k++)
        if (same_machine(&it->found.list[k], &it->at))
            return k;
    return 0;
}

void remote_begin(remote *it, const far_end *of)
{
    *it = (remote){.is_known = of->host[0] == '\0', .at = of->at};
    if (!it->is_known)
        ask(it, of);
}

bool remote_look(remote *it, const far_end *of, bool is_wanted)
{
    answers found;
    if (of->host[0] == '\0')
        return false;
    if (takes_answer(it, &found)) { /* (and other names have their turn) */
        if (found.count > 0)
            it->found = found;
        return found.count > 0 && use(it, turn_of(it), of->at.port);
    }
    if (it->question == NULL && (it->asked == 0 || ((is_wanted || !it->is_known) && clock_now() - it->asked >= MINUTE)))
        ask(it, of);
    return false;
}

void remote_fails(remote *it)
{
    if (it->found.count > 0)
        use(it, (it->turn + 1) % it->found.count, it->at.port);
}

/* plug.h of a made-up system: switches that answer late or never, end, and say what no switch says. */
#include "systems/plug.h"

#include <errno.h>
#include <string.h>

#include "chance.h"
#include "descriptors.h"
#include "peace.h"
#include "play.h"
#include "switches.h"
#include "systems/sockets.h"
#include "weather.h"

static const int OF_CALLING[] = {ENOENT, ECONNREFUSED, EACCES, EMFILE, ENFILE, ENOMEM, EAGAIN, ENAMETOOLONG, EBUSY, 0};
static const int OF_RECEIVING[] = {EAGAIN, EINTR, ECONNRESET, ENOMEM, EPROTO, 0};
static const int OF_ANSWERING[] = {EPROTO, ENOENT, ECONNREFUSED, ENOMEM, 0};

void switch_acts(void)
{
    int fd = descriptor_any(CALL);
    if (fd < 0)
        return;
    descriptor *it = descriptor_at(fd, CALL);
    it->stage = it->stage == UNDER_WAY && !one_in(4) ? CONNECTED : one_in(3) ? CUT : it->stage;
    it->is_complained = true; /* (it has something to say) */
    told("switch %d: stage %d", fd, it->stage);
}

int plug_call(plug *it, const char *path)
{
    memset(it, 0, sizeof *it);
    it->call = -1;
    if (path[0] == '\0')
        wrong("a switch without a path is called");
    if (fails(OF_CALLING))
        return -1;
    it->call = descriptor_open(CALL);
    int fd = it->call >= 0 ? descriptor_open(PORT) : -1;
    if (fd < 0) {
        close_any(&it->call);
        errno = EMFILE;
        return -1;
    }
    descriptor_at(fd, PORT)->local.port = (uint16_t)it->call;
    if (one_in(3) || is_peace())
        descriptor_at(it->call, CALL)->stage = CONNECTED;
    return fd;
}

plug_state plug_looks(plug *it, int fd)
{
    descriptor *call = descriptor_at(it->call, CALL);
    if (descriptor_at(fd, PORT)->local.port != it->call)
        wrong("switch %d is asked for the port of another, %d", it->call, fd);
    call->is_complained = false;
    if (call->stage == UNDER_WAY && is_peace())
        call->stage = CONNECTED;
    if (call->stage == CUT)
        return PLUG_REFUSED;
    if (call->stage == UNDER_WAY)
        return PLUG_WAITS;
    if (it->is_wrong || (it->far[0] == '\0' && fails(OF_ANSWERING)))
        return PLUG_WRONG;
    it->far[0] = '/';
    return PLUG_HAS_PORT;
}

bool plug_receive(plug *it, int fd, arrivals *in)
{
    descriptor *from = descriptor_at(fd, PORT);
    in->count = 0;
    if (it->far[0] == '\0')
        wrong("frames are received of a switch that hasn't answered");
    if (fails(OF_RECEIVING)) {
        it->is_wrong = errno == EPROTO;
        return false;
    }
    errno = EAGAIN;
    while (from->count > 0 && in->count < in->most)
        take_next(from, &in->list[in->count++]);
    return in->count > 0;
}

void plug_end(plug *it, int *fd)
{
    descriptor_at(it->call, CALL);
    close_any(&it->call);
    close_any(fd);
    memset(it, 0, sizeof *it);
    it->call = -1;
}

#include "systems/windows/bell.h"

static SOCKET bell = INVALID_SOCKET;

/* Connects a socket with itself. */
static bool hears_itself(SOCKET fd)
{
    struct sockaddr_in own = {.sin_family = AF_INET, .sin_addr.s_addr = htonl(INADDR_LOOPBACK)};
    int size = sizeof own;
    u_long yes = 1;
    return bind(fd, (const struct sockaddr *)&own, size) == 0 && getsockname(fd, (struct sockaddr *)&own, &size) == 0 &&
           connect(fd, (const struct sockaddr *)&own, size) == 0 && ioctlsocket(fd, FIONBIO, &yes) == 0;
}

SOCKET socket_to_itself(void)
{
    SOCKET made = socket(AF_INET, SOCK_DGRAM, 0);
    if (made == INVALID_SOCKET || hears_itself(made))
        return made;
    int why = WSAGetLastError();
    closesocket(made);
    WSASetLastError(why);
    return INVALID_SOCKET;
}

void bell_hang(void)
{
    bell = socket_to_itself();
}

void bell_ring(void)
{
    if (bell != INVALID_SOCKET)
        (void)send(bell, "", 1, 0);
}

SOCKET bell_socket(void)
{
    return bell;
}

void bell_hush(void)
{
    char rung;
    while (recv(bell, &rung, sizeof rung, 0) >= 0)
        ;
}

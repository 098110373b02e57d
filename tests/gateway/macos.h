/* Names as macOS has them in the place of this system's, so that what is written for them is compiled here too: it stands before all else. */
/* (macOS shows what it has beside POSIX, too) */
#define _DEFAULT_SOURCE
#include <arpa/inet.h>
#include <errno.h>
#include <fcntl.h>
#include <netinet/in.h>
#include <netinet/tcp.h>
#include <poll.h>
#include <string.h>
#include <sys/socket.h>
#include <sys/stat.h>
#include <sys/uio.h>
#include <sys/un.h>
#include <time.h>
#include <unistd.h>

#undef _DEFAULT_SOURCE /* (files ask for it themselves) */
#undef ENONET
#undef MSG_NOSIGNAL
#undef POLLRDHUP
#undef SOCK_NONBLOCK
#undef TCP_KEEPIDLE

#define CLOCK_UPTIME_RAW 8
#define EFTYPE 79
#define IPV6_PREFER_TEMPADDR 63
#define SO_NOSIGPIPE 0x1022
#define TCP_KEEPALIVE 0x10
#define TCP_RXT_CONNDROPTIME 0x80

"""The calls of the system that the tests let fail."""
import errno

from systems import SYSTEM

# Each of Linux' calls, the faults that it gives, and how many times it is let fail: the first time, the second, ..
OF_LINUX = [
    ("socket", errno.EMFILE, 5),
    ("bind", errno.EADDRINUSE, 4),
    ("getsockname", errno.ENOBUFS, 4),
    ("setsockopt", errno.ENOBUFS, 8),
    ("getsockopt", errno.ENOBUFS, 2),
    ("fcntl", errno.EINVAL, 8),
    ("connect", errno.ENETUNREACH, 2),
    ("listen", errno.EADDRINUSE, 1),
    ("accept", errno.EMFILE, 2),
    ("recv", errno.ENETDOWN, 3),
    ("recvmmsg", errno.ENETDOWN, 4),
    ("recvmmsg", errno.EINTR, 2),
    ("send", errno.ENETDOWN, 3),
    ("sendto", errno.ENOBUFS, 4),
    ("poll", errno.ENOMEM, 4),
    ("poll", errno.EINTR, 2),
    ("close", errno.EIO, 3),
    ("clock_gettime", errno.EINVAL, 4),
    ("fopen", errno.EACCES, 2),
    ("open", errno.EMFILE, 2),
    ("write", errno.ENOSPC, 4),
    ("write", errno.EINTR, 2),
    ("malloc", errno.ENOMEM, 6),
    ("realloc", errno.ENOMEM, 3),
    ("getrandom", errno.ENOSYS, 1),
]


def call_of(name):
    """What the system that is tried calls in the place of a call of Linux."""
    return SYSTEM.calls.get(name, name)


CALLS = [(call_of(name), fault, times) for name, fault, times in OF_LINUX]

"""Shuts the door of a server that one has started, and cuts its links: it ends by itself then, as each who leaves has a
game of one board between accounts adjourned, and what is new is kept.

The system lets a process take over a descriptor of one that it has started (pidfd_getfd), so no right is wanted that
its user hasn't.
"""
import ctypes
import errno
import os
import select
import socket

PIDFD_GETFD = 438  # of every architecture
LISTENS = "0A"
PASSES = 3  # over its descriptors: what was taken as the door was shut comes to be one of them


def listening():
    """The numbers of the TCP sockets that are listened at."""
    for table in ("/proc/net/tcp", "/proc/net/tcp6"):
        try:
            with open(table, encoding="ascii") as file:
                rows = [it.split() for it in file.readlines()[1:]]
        except OSError:
            continue
        yield from (row[9] for row in rows if row[3] == LISTENS)


def sockets_of(process):
    """The descriptors of the sockets that a process has, by the sockets' numbers."""
    folder, found = f"/proc/{process}/fd", {}
    for it in os.listdir(folder):
        try:
            name = os.readlink(f"{folder}/{it}")
        except OSError:
            continue  # it was closed meanwhile
        if name.startswith("socket:["):
            found[name[len("socket:["):-1]] = int(it)
    return found


def is_listening(process):
    """Whether a process listens: a server that can't have its port writes `ready` all the same, and then ends."""
    try:
        return not sockets_of(process).keys().isdisjoint(listening())
    except OSError:
        return False


def taken_over(whose, descriptor):
    """A descriptor of one's own for the same file as that of another process, which stands for that."""
    system = ctypes.CDLL(None, use_errno=True)
    got = system.syscall(PIDFD_GETFD, whose, descriptor, 0)
    if got < 0:
        raise OSError(ctypes.get_errno(), os.strerror(ctypes.get_errno()))
    return got


def shut(whose, number, descriptor):
    """Shuts a socket of another process, where it is still that one."""
    try:
        got = taken_over(whose, descriptor)
    except OSError as error:
        if error.errno == errno.EBADF:
            return  # it was closed meanwhile
        raise
    if os.fstat(got).st_ino != int(number):
        os.close(got)
        return
    with socket.socket(fileno=got) as it:
        try:
            it.shutdown(socket.SHUT_RDWR)
        except OSError:
            pass  # its other end has left already


def has_ended(whose):
    """Whether the process that this stands for has ended."""
    return bool(select.select([whose], [], [], 0)[0])


def cut(process):
    """Shuts the door, then each link. `OSError` where the system doesn't let one do that."""
    try:
        whose = os.pidfd_open(process)
    except ProcessLookupError:
        return
    try:
        doors = set(listening())
        for _ in range(PASSES):
            sockets = sockets_of(process)
            for number in sorted(sockets, key=lambda it: it not in doors):
                shut(whose, number, sockets[number])
    except OSError:
        if not has_ended(whose):
            raise
    finally:
        os.close(whose)

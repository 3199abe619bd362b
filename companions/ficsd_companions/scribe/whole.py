"""Files that end with what is whole: what is put behind it is there to its last byte, or nothing of it is."""

import errno
import os

FULL = (errno.ENOSPC, errno.EDQUOT)  # a disk, or the part of it that one may fill


def put(file: int, size: int, data: bytes, *, to_disk: bool = False) -> int:
    """Puts bytes behind the first `size` of a file, unbuffered, since a buffer that found no room writes its rest once
    more as it is closed. The file's size then. Where they don't all find room the file is cut back to its first `size`
    bytes, and `OSError` says why."""
    try:
        os.ftruncate(file, size)  # what an earlier try has left
        at, end = size, size + len(data)
        while at < end:
            at += os.pwrite(file, data[at - size :], at)
        if to_disk:
            os.fsync(file)
    except OSError:
        os.ftruncate(file, size)
        raise
    return end

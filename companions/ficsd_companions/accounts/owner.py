"""Who works in a store's folder. Its owner may put a link in the place of any file there at any moment, so root becomes
that owner before it touches one."""

import os
import pwd
from pathlib import Path


def become_owner(path: Path) -> None:
    """Goes on, for good, as who has the folder of a file or one above it, where this is root and another has one."""
    if os.geteuid() != 0:
        return
    folders = [it.stat() for it in path.resolve().parents if it.is_dir()]
    for it in folders:
        if it.st_uid != 0:
            os.setgroups(groups_of(it.st_uid, it.st_gid))
            os.setgid(it.st_gid)
            os.setuid(it.st_uid)
            return


def groups_of(user: int, group: int) -> list[int]:
    """The groups of a user, who may have no name."""
    try:
        return os.getgrouplist(pwd.getpwuid(user).pw_name, group)
    except KeyError:
        return [group]

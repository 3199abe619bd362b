"""The files of the repository as a revision has them, or as they are."""
import subprocess

from .sources import TOP, tracked


def git(words, given=b""):
    return subprocess.run(["git", "-C", str(TOP), *words], input=given, check=True, stdout=subprocess.PIPE).stdout


def texts(said, names):
    """The texts that `git cat-file --batch` tells one behind the other, each below a line that ends with its length."""
    at = 0
    for name in names:
        end = said.index(b"\n", at)
        length = int(said[at:end].rsplit(b" ", 1)[1])
        at = end + 1 + length + 1
        yield name, said[end + 1:at - 1].decode(errors="replace")


def files_at(revision=None, folders=()):
    """The path and the text of each file below the folders, all of them where none is named; no revision means the
    files as they are."""
    if revision is None:
        for file in tracked():
            if not folders or str(file) in folders or file.parts[0] in folders:
                yield str(file), (TOP / file).read_text("utf-8", errors="replace")
        return
    listed = git(["ls-tree", "-r", "-z", revision, "--", *map(str, folders)]).decode()
    heads = [it.split("\t", 1) for it in listed.split("\0") if it]
    blobs = [(name, head.split()[2]) for head, name in heads if head.split()[1] == "blob"]
    said = git(["cat-file", "--batch"], "".join(f"{blob}\n" for _, blob in blobs).encode())
    yield from texts(said, [name for name, _ in blobs])


def is_revision(word):
    ran = subprocess.run(["git", "-C", str(TOP), "rev-parse", "--verify", "--quiet", f"{word}^{{tree}}"],
                         capture_output=True, check=False)
    return not ran.returncode

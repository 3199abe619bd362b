"""The files of the repository, as git has them or would take them in."""
import subprocess
from functools import lru_cache
from pathlib import Path

TOP = Path(__file__).resolve().parent.parent.parent
# what lies in a crate and is no text that somebody reads as code or definition
KINDS = ("src", "specs", "proofs")


@lru_cache
def tracked():
    """The paths of all files that are tracked or would be, from the top."""
    words = ["git", "-C", str(TOP), "ls-files", "-z", "--cached", "--others", "--exclude-standard"]
    said = subprocess.run(words, capture_output=True, check=True).stdout.decode()
    return [Path(it) for it in sorted(set(said.split("\0"))) if it and (TOP / it).is_file()]


@lru_cache
def text(file):
    return (TOP / file).read_text(encoding="utf-8")


def of_crates(*kinds):
    """The files of code, definitions or proofs of all crates."""
    return [it for it in tracked() if it.parts[0] == "crates" and len(it.parts) > 3 and it.parts[2] in kinds
            and it.suffix in (".rt", ".antt")]


@lru_cache
def uses_of_crates():
    """Each crate of crates.txt with the libraries that it names, in its order."""
    heads = [it.partition("#")[0].partition(":") for it in text("crates.txt").splitlines()]
    return {head.split()[0]: uses.split() for head, colon, uses in heads if colon}

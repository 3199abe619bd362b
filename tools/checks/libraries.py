"""Libraries that crates.txt gives a crate whose text has no path into them."""
import re

from .sources import KINDS, of_crates, text, uses_of_crates

COMMENT = {".rt": re.compile(r"//.*"), ".antt": re.compile(r"--.*")}
# a path in code begins with the library's name, one in definitions and proofs has it behind the name of them all
PATH = re.compile(r"(?<![\w:.])(?:Rattle\.)?(\w+)(?:::|\.)")


def texts_of_crates():
    """The text of each crate without its comments."""
    texts = {}
    for file in of_crates(*KINDS):
        texts.setdefault(file.parts[1], []).append(COMMENT[file.suffix].sub("", text(file)))
    return {name: "\n".join(parts) for name, parts in texts.items()}


def faults():
    texts = texts_of_crates()
    for crate, uses in uses_of_crates().items():
        named = set(PATH.findall(texts.get(crate, "")))
        for it in uses:
            if it not in named:
                yield f"crates.txt gives {crate} the library {it}, which its text doesn't name"

"""Each file begins with a comment that says what it is for."""
from .sources import of_crates, text, tracked

HEADS = {".rt": "//!", ".antt": "-- ", ".py": '"""', ".js": "/*", ".mjs": "/*", ".css": "/*"}


def begins_well(file):
    lines = [it for it in text(file).splitlines() if not it.startswith("#!")]
    return not lines or lines[0].startswith(HEADS[file.suffix])


def faults():
    folders = ("tools", "companions", "trials", "bench")
    scripts = [it for it in tracked() if it.parts[0] in folders and it.suffix in HEADS]
    definitions = [it for it in of_crates("specs") if it.name != "Lib.antt"]
    for file in [*of_crates("src"), *definitions, *scripts]:
        if not begins_well(file):
            yield f"{file} doesn't begin with a comment ({HEADS[file.suffix]}) that says what it is for"

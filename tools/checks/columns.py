"""Lines of program code, definitions, proofs and tools within 120 columns, and files of code and tools within 600
lines."""
from .sources import of_crates, text, tracked

MOST_COLUMNS, MOST_LINES = 120, 600
SCRIPTS = (".py", ".sh")


def is_import(line):
    return line.lstrip().removeprefix("ghost ").removeprefix("pub ").startswith("use ")


def is_script(file):
    return file.parts[0] == "tools" and (file.suffix in SCRIPTS or (not file.suffix and text(file).startswith("#!")))


def wide_lines(file):
    for at, line in enumerate(text(file).splitlines(), 1):
        if len(line) > MOST_COLUMNS and not is_import(line):
            yield f"{file}:{at} has {len(line)} columns, more than {MOST_COLUMNS}"


def faults():
    code = [it for it in of_crates("src") if not it.parts[1].startswith("test_")]
    scripts = [it for it in tracked() if is_script(it)]
    wide = [it for file in of_crates("specs", "proofs") for it in wide_lines(file)]
    yield from wide
    if wide:
        yield f"tools/checks/wrap wraps these {len(wide)} lines of definitions and proofs"
    for file in [*code, *scripts]:
        yield from wide_lines(file)
        if (lines := len(text(file).splitlines())) > MOST_LINES:
            yield f"{file} has {lines} lines, more than {MOST_LINES}"

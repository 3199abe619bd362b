"""What runs beside the server is one Python project: no file of it says where modules are found or silences a lint
without its reason, each folder is a package that is installed, and each command has a launcher that begins it."""
import re
import tomllib

from .sources import TOP, text, tracked

FOLDERS = ("companions", "trials", "bench")
HOUSE = "companions/ficsd_companions"
REFUSED = {
    r"\bsys\.path\b": "where modules are found is the launchers' and pytest's matter",
    r"\bdont_write_bytecode\b": "bytecode is the system's matter",
    r"# noqa\b(?!.*\S+ .*[a-z]{3})": "a lint is silenced with its reason behind it",
    r"# type: ignore(?:\[[\w,-]+\])?\s*$": "a type is ignored with its code and its reason behind it",
}


def of_lines(files):
    for file in files:
        for number, line in enumerate(text(file).splitlines(), 1):
            for pattern, why in REFUSED.items():
                if re.search(pattern, line):
                    yield f"{file}:{number}: {why}"


def of_project():
    project = tomllib.loads(text("companions/pyproject.toml"))
    named = set(project["tool"]["setuptools"]["packages"]) - {"ficsd_companions", "ficsd_companions.page"}
    inside = (it.parent.relative_to(TOP / "companions") for it in (TOP / HOUSE).glob("*/**/__init__.py"))
    folders = {".".join(it.parts) for it in inside}
    for it in sorted(named ^ folders):
        yield f"companions/pyproject.toml: {it} is {'no folder' if it in named else 'none of the packages'}"
    of_packages = [it for row in project["tool"]["ficsd"]["packages"].values() for it in row["commands"]]
    scripts = project["project"]["scripts"]
    for it in sorted(set(of_packages) ^ set(scripts)):
        yield f"companions/pyproject.toml: {it} is a command of {'Debian' if it in of_packages else 'pip'} alone"
    for name, place in scripts.items():
        launcher = TOP / "companions" / name
        begins = "from {} import {}".format(*place.split(":"))
        if not launcher.is_file() or begins not in launcher.read_text(encoding="utf-8"):
            yield f"companions/{name}: a launcher with `{begins}` is wanted"


def faults():
    yield from of_lines([it for it in tracked() if it.parts[0] in FOLDERS and it.suffix in (".py", "")
                         and (it.suffix or len(it.parts) == 2)])
    yield from of_project()

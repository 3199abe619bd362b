"""Puts a second and loads of the program `pace_store`, and what becomes of a store on which things go wrong.

The command `sqlite3` is Debian's (`apt-get install sqlite3`); without it its lines are left out. It ends with 1 where
something came otherwise than it should.
"""

import os
import shutil
import subprocess
import tempfile
import threading
import time

from bench.measure import files_of, machine, program_for
from tests.kit.records import TABLE
from trials.tale import Tale

RECORDS = 10_000
KILLS = 10
PROGRAM = program_for("pace_store", __doc__)
tale = Tale()


def run(*words):
    """What the program prints, and the seconds that it takes."""
    start = time.perf_counter()
    done = subprocess.run([PROGRAM, *map(str, words)], stdin=subprocess.DEVNULL, capture_output=True, text=True)
    return done.stdout.splitlines(), time.perf_counter() - start


def says(name, got, wanted):
    """Prints what came, as a loss where it isn't what was wanted."""
    tale.holds(
        got == wanted, f"{name}: {' / '.join(got)}" + ("" if got == wanted else f", wanted {' / '.join(wanted)}")
    )


def sqlite(path, text):
    """The lines that the command `sqlite3` prints; an error is its last line."""
    done = subprocess.run(["sqlite3", path, text], capture_output=True, text=True)
    return (done.stdout + done.stderr).splitlines()


def paces(folder):
    """Puts and loads of many records."""
    path = os.path.join(folder, "pace")
    lines, seconds = run("put", path, RECORDS)
    says("last put", lines[-2:], [f"{RECORDS - 1} done", "closed: done"])
    print(f"{RECORDS} puts: {seconds:.2f} s, {RECORDS / seconds:.0f} a second")
    lines, seconds = run("load", path)
    says("load", lines, [f"{RECORDS} records", "closed: done"])
    print(f"load: {seconds * 1000:.0f} ms")
    lines, seconds = run("read", path)
    says("read", lines, [f"{RECORDS} records"])
    print(f"read: {seconds * 1000:.0f} ms")
    return path


def kills(folder):
    """A keeper that is killed between two puts or in one: whatever it said was kept is found."""
    path = os.path.join(folder, "killed")
    least = 0
    for turn in range(KILLS):
        keeper = subprocess.Popen([PROGRAM, "put", path, "100000"], stdout=subprocess.PIPE, text=True)
        time.sleep(0.1 + 0.05 * turn)
        keeper.kill()
        said = [line for line in keeper.stdout.read().split("\n")[:-1] if line.endswith(" done")]
        keeper.wait()
        least = max(least, len(said))
        read, _ = run("read", path)
        loaded, _ = run("load", path)
        count = int(loaded[0].split()[0]) if loaded[0].endswith(" records") else -1
        if count < least or read != loaded[:1]:
            tale.lost(f"kill {turn}: {least} were said to be kept, read {read}, loaded {loaded}")
    print(f"{KILLS} kills: up to {least} records said to be kept, and all found")


def busy(folder):
    """A reader while a keeper puts: it finds each record that was said to be kept before it began."""
    path = os.path.join(folder, "busy")
    lines = []
    keeper = subprocess.Popen([PROGRAM, "put", path, "100000"], stdout=subprocess.PIPE, text=True)
    hearer = threading.Thread(target=lambda: lines.extend(keeper.stdout))
    hearer.start()
    for _ in range(KILLS):
        time.sleep(0.2)
        said = max(len(lines) - 1, 0)
        read, _ = run("read", path)
        if not read[0].endswith(" records") or int(read[0].split()[0]) < said:
            tale.lost(f"{said} were said to be kept, read {read}")
    keeper.kill()
    keeper.wait()
    hearer.join()
    print(f"{KILLS} reads while {len(lines)} records were put, each with all that were said to be kept")


def held(path):
    """While one keeper has the store, another is refused, and a reader isn't and changes nothing."""
    keeper = subprocess.Popen([PROGRAM, "hold", path], stdin=subprocess.PIPE, stdout=subprocess.PIPE, text=True)
    says("held", [keeper.stdout.readline().strip()], [f"{RECORDS} records"])
    says("second keeper", run("put", path, 1)[0], ["0 failed", "closed: done"])
    before = files_of(os.path.dirname(path))
    says("reader beside it", run("read", path)[0], [f"{RECORDS} records"])
    if files_of(os.path.dirname(path)) != before:
        tale.lost("a reader changed a file")
    if shutil.which("sqlite3"):
        print(f"sqlite3 beside it: {' / '.join(sqlite(path, 'SELECT count(*) FROM records'))}")
    rest, _ = keeper.communicate()
    says("let go", rest.split("\n")[:-1], ["closed: done"])


def by_sqlite(folder, path):
    """The command `sqlite3` reads and writes a store that is let go, and makes one."""
    if not shutil.which("sqlite3"):
        return
    says("sqlite3 counts", sqlite(path, "SELECT count(*) FROM records"), [str(RECORDS)])
    says("sqlite3 writes", sqlite(path, "INSERT INTO records VALUES (x'00', x'01'); VACUUM"), [])
    says("load after it", run("load", path)[0], [f"{RECORDS + 1} records", "closed: done"])
    made = os.path.join(folder, "made")
    says("sqlite3 makes one", sqlite(made, TABLE), [])
    says("put into it", run("put", made, 2)[0], ["0 done", "1 done", "closed: done"])
    loose = os.path.join(folder, "loose")
    says("a table without a key", sqlite(loose, "CREATE TABLE records (key BLOB, record BLOB)"), [])
    says("put into that", run("put", loose, 1)[0], ["0 failed", "closed: done"])
    texts = os.path.join(folder, "texts")
    says(
        "keys that are text",
        sqlite(texts, "CREATE TABLE records (key, record); INSERT INTO records VALUES ('a', 'b')"),
        [],
    )
    says("load of those", run("load", texts)[0], ["failed", "closed: done"])


def refused(folder, path):
    """What is no store, or can't be written."""
    missing = os.path.join(folder, "nowhere")
    says("read where nothing is", run("read", missing)[0], ["failed"])
    if os.path.exists(missing):
        tale.lost("a reader made a file")
    inside = os.path.join(folder, "no_folder", "store")
    says("put into a folder that isn't there", run("put", inside, 1)[0], ["0 failed", "closed: done"])
    says("put into a folder", run("put", folder, 1)[0], ["0 failed", "closed: done"])
    says("read of a folder", run("read", folder)[0], ["failed"])
    text = os.path.join(folder, "text")
    with open(text, "w") as file:
        file.write("no database\n" * 1000)
    says("put into a text", run("put", text, 1)[0], ["0 failed", "closed: done"])
    says("read of a text", run("read", text)[0], ["failed"])
    only = os.path.join(folder, "only")
    shutil.copy(path, only)
    os.chmod(only, 0o444)
    if os.geteuid() != 0:
        says("put into a file that may only be read", run("put", only, 1)[0], ["0 failed", "closed: done"])
    count = run("read", path)[0]
    says("read of it", run("read", only)[0], count)
    cut = os.path.join(folder, "cut")
    shutil.copy(path, cut)
    os.truncate(cut, os.path.getsize(cut) // 2)
    says("load of half a file", run("load", cut)[0], ["failed", "closed: done"])
    says("read of half a file", run("read", cut)[0], ["failed"])


def main():
    print(machine())
    with tempfile.TemporaryDirectory() as folder:
        path = paces(folder)
        kills(folder)
        busy(folder)
        held(path)
        by_sqlite(folder, path)
        refused(folder, path)
    tale.end()


if __name__ == "__main__":
    main()

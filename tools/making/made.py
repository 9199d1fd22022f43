"""What the kit has made of the crates: libraries and programs, the files that they are of, and the words by which rattle works over them."""

import hashlib
import json
import re
import shutil
import subprocess
import sys
from functools import cache
from pathlib import Path

ROOT = Path(__file__).resolve().parents[2]
CRATES = ROOT / "crates"
NOTE = ROOT / "target" / "made.json"


class Unbuilt(Exception):
    pass


@cache
def kit():
    rt = shutil.which("rt")
    if not rt:
        raise Unbuilt("there is no Rattle kit (rt) on the path")
    return Path(rt).resolve().parent.parent


@cache
def version():
    """The kit's own name."""
    kit()
    ran = subprocess.run(["rt", "version"], capture_output=True, text=True)
    if ran.returncode:
        raise Unbuilt("the kit's rt does not say its version")
    return ran.stdout


@cache
def listed():
    """The crates of crates.txt: the words beside each name, and the libraries that it uses."""
    found = {}
    for line in (ROOT / "crates.txt").read_text().splitlines():
        name, colon, uses = line.partition("#")[0].partition(":")
        if colon:
            first, *words = name.split()
            found[first] = words, uses.split()
    return found


@cache
def below(crate):
    """The crates that one stands on, lowest first."""
    found = []
    for use in listed()[crate][1]:
        if use in listed():
            found += [name for name in (*below(use), use) if name not in found]
    return tuple(found)


def files_of(crate):
    """The files that a crate's proof reads."""
    return sorted(path for part in ("src", "specs", "proofs") for path in (CRATES / crate / part).rglob("*") if path.is_file())


@cache
def own_sum(crate):
    """A sum of a crate's own files and of its line of crates.txt."""
    told = hashlib.sha256(repr(listed()[crate]).encode())
    for path in files_of(crate):
        told.update(repr((str(path.relative_to(CRATES)), path.read_bytes())).encode())
    return told.hexdigest()


def sum_of(crate):
    """A sum of all that is proved of a crate: the kit, its files and those of the crates below."""
    return hashlib.sha256(repr((version(), [own_sum(name) for name in (*below(crate), crate)])).encode()).hexdigest()


def is_program(crate):
    return (CRATES / crate / "src" / "main.rt").is_file()


def is_static(crate):
    return "staticlib" in listed()[crate][0]


def rlib(crate):
    return CRATES / crate / "out" / "rlib" / f"{crate}.rlib"


def seen(crate):
    """What tells a crate's library or program from another, '' if there is none: the library's file `format` has the sums of its others."""
    file = CRATES / crate / "out" / crate if is_program(crate) else rlib(crate) / "format"
    return hashlib.sha256(file.read_bytes()).hexdigest() if file.is_file() else ""


def note():
    """Notes of which files the libraries and programs are that a whole `rt ci` has just made."""
    NOTE.parent.mkdir(exist_ok=True)
    NOTE.write_text(json.dumps({crate: [sum_of(crate), seen(crate)] for crate in listed() if seen(crate)}, indent=0))


@cache
def noted():
    try:
        return json.loads(NOTE.read_text())
    except (OSError, ValueError):
        return {}


def holds(crate):
    """True if a crate's library or program is of the files as they are now, by the note."""
    return bool(seen(crate)) and noted().get(crate) == [sum_of(crate), seen(crate)]


def rt(crate, *words):
    """Runs rt in a crate's folder, and shows only which crates it proves, or all if it fails."""
    ran = subprocess.run([ROOT / "tools" / "quietly", "rt", *words], cwd=CRATES / crate, stdin=subprocess.DEVNULL, stdout=sys.stderr)
    return ran.returncode == 0


def has_below(crate):
    """Has the libraries below a crate built of the files as they are now."""
    # asked for no function, rt builds these and proves nothing of the crate
    if not all(map(holds, below(crate))) and not rt(crate, "check", "--only", ""):
        raise Unbuilt(f"what {crate} uses is not built")


def words(crate):
    """The words by which rattle checks or builds a crate in its folder, over the libraries below."""
    uses, places = listed()[crate][1], [f"dependency={rlib(name).parent}" for name in below(crate)]
    told = ["--crate-name", crate, "src/main.rt" if is_program(crate) else "src/lib.rt"]
    for use in ("std", *uses):
        told += ["--extern", f"{use}={rlib(use) if use in listed() else kit() / 'rlibs' / f'{use}.rlib'}"]
    for place in (f"dependency={kit() / 'rlibs'}", *places):
        told += ["-L", place]
    told += ["--antt-project", f"{kit()}/rattle/logic/antt-project.json", "--logic-built", f"{kit()}/logic_built", "--links", f"{crate}="]
    return told + (["--crate-type", "staticlib"] if is_static(crate) else [])


def rattle():
    return str(kit() / "bin" / "rattle")


def has_program(crate):
    """Has a program in crates/CRATE/out of the files as they are now."""
    if holds(crate):
        return
    # it is run once, on nothing, since rt has no command that only builds it; so its own status says nothing
    ran = subprocess.run(["rt", "run"], cwd=CRATES / crate, stdin=subprocess.DEVNULL, stdout=subprocess.DEVNULL, stderr=subprocess.PIPE, text=True, errors="replace")
    if not re.search(r"^logic=proved|^rt: nothing has changed since the last proved build", ran.stderr, re.M):
        raise Unbuilt(f"{crate} is not proved or not built:\n{ran.stderr}")

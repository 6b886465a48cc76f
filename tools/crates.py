"""Copies of some crates of the repository, and the programs that tools/build and ./test keep in out/ for ./roster.

Next to a program NAME there is a note NAME.built: what tools/sources printed for it, and what 'rt version' did.
"""
import contextlib
import os
import re
import shutil
import subprocess

TOP = os.path.dirname(os.path.dirname(os.path.realpath(__file__)))
KEPT = f"{TOP}/out"
# Whatever puts a program there holds a lock on this file.
LOCK = f"{KEPT}/build.lock"
SOURCES = ("src", "specs", "proofs")
# What a copy of a crate's folder leaves out: what rt has built, and edits.
LEFT_OUT = ("out", "must-fail", "more-must-fail")


def printed(*words, **how):
    return subprocess.run(words, stdout=subprocess.PIPE, text=True, check=True, **how).stdout


def lines(*names):
    """The lines of crates.txt of some crates and of all below them, by their names."""
    with open(f"{TOP}/crates.txt", encoding="utf-8") as file:
        found = printed(f"{TOP}/tools/crate-lines", *names, stdin=file).splitlines(keepends=True)
    return {re.match(r"\s*([^\s:]+)", line)[1]: line for line in found}


def copy(names, to):
    """Copies some crates and all below them, without what rt has built and without edits, into a folder. Returns their names."""
    found = lines(*names)
    with open(f"{to}/crates.txt", "w", encoding="utf-8") as file:
        file.writelines(found.values())
    shutil.copy(f"{TOP}/HANDLES", to)
    for name in found:
        folder = f"{TOP}/crates/{name}"
        shutil.copytree(folder, f"{to}/crates/{name}", ignore=lambda at, _, top=folder: LEFT_OUT if at == top else ())
    return [*found]


def built_of(name, folder=TOP):
    """What a program would be built of now: what tools/sources prints, and if there is a kit, its version."""
    version = printed("rt", "version") if shutil.which("rt") else ""
    return printed(f"{TOP}/tools/sources", name, folder) + version


def program(name):
    """Where a program is kept."""
    return f"{KEPT}/{name}"


def is_current(name):
    """Whether there is a program that was built of the sources as they are, and by the kit that is there, if one is."""
    try:
        with open(f"{program(name)}.built", encoding="utf-8") as file:
            noted = file.read().splitlines()
    except FileNotFoundError:
        return False
    now = built_of(name)
    digest, _, *version = now.splitlines()
    if not os.access(program(name), os.X_OK) or noted[:1] != [digest] or (version and noted[2:] != version):
        return False
    if version:
        # the same kit may be in another folder than then
        note(name, now)
    return True


def note(name, of):
    """Notes next to a program what it was built of."""
    path = f"{program(name)}.built"
    with open(f"{path}.new", "w", encoding="utf-8") as file:
        file.write(of)
    os.replace(f"{path}.new", path)


def keep(built, name, since, of):
    """Puts a built program where it is kept. Its build began at that time, and `of` is what built_of returned for it then."""
    path = program(name)
    os.makedirs(KEPT, exist_ok=True)
    # a run that is killed in between leaves no note, and a program without a note isn't used
    with contextlib.suppress(FileNotFoundError):
        os.remove(f"{path}.built")
    shutil.copy(built, f"{path}.new")
    os.utime(f"{path}.new", (since, since))
    os.replace(f"{path}.new", path)
    note(name, of)


def have_changed(since):
    """Whether a source has been written since that time, whatever its time stamp says."""
    paths = [f"{TOP}/crates.txt", f"{TOP}/HANDLES"]
    for name in os.listdir(f"{TOP}/crates"):
        for folder in SOURCES:
            for at, _, files in os.walk(f"{TOP}/crates/{name}/{folder}", followlinks=True):
                paths += [at, *(f"{at}/{file}" for file in files)]
    try:
        return any(os.stat(path).st_ctime >= since for path in paths)
    except FileNotFoundError:
        return True

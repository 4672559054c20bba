#!/usr/bin/env python3
"""Runs the gate for some crates and those below them, over what earlier runs of this tool proved on this machine.

    tools/kept.py                 all crates
    tools/kept.py NAME..          these, and those below them
    tools/kept.py --lay NAME..    proves nothing: lays the kept libraries below these out, so that `rt check` begins with them
    tools/kept.py --forget        forgets all that is kept, and runs nothing

Where the kit's `rt ci` takes names and keeps what passed, it is run, and what it kept is laid out. Where it does neither, this tool
does both: it proves a crate by the same command, and keeps what that built under a sum of the crate's files, of its libraries and of
the kit. Where the sum is known nothing is proved again, and no edit is tried. That lies in ~/.cache/loftlavender, or where
LOFTLAVENDER_KEPT names a folder. It is a help while one works, and not the gate."""
import contextlib
import functools
import hashlib
import os
import shutil
import sys
import tempfile
from pathlib import Path

sys.path.append(os.path.dirname(os.path.abspath(__file__)))

import unproved

KEPT = Path(os.environ.get("LOFTLAVENDER_KEPT") or Path.home() / ".cache/loftlavender")
PARTS = ("src", "specs", "proofs")


def crates_of(text):
    """The crates that a crates.txt names: of each its words before the colon, and the libraries that it uses."""
    found = {}
    for line in text.splitlines():
        name, colon, used = line.partition("#")[0].partition(":")
        if colon:
            found[name.split()[0]] = (name.split(), used.split())
    return found


def crates_in(root):
    """The crates of a repository."""
    return crates_of((root / "crates.txt").read_text(encoding="utf-8"))


def below(names, crates):
    """These crates, and all of the repository that they use."""
    found, left = set(), list(names)
    while left:
        name = left.pop()
        if name in crates and name not in found:
            found.add(name)
            left += crates[name][1]
    return found


class Store:
    """What was proved on this machine, by sums of all that it was proved from."""

    def __init__(self, root, kit):
        self.root, self.kit, self.crates = root, Path(kit, "KIT-ID").read_bytes(), crates_in(root)
        self.sum = functools.cache(self.sum_of)

    def sum_of(self, name):
        """A sum of the crate's files and line, of its libraries, and of the kit."""
        folder, made = self.root / "crates" / name, hashlib.sha256(self.kit + repr(self.crates[name]).encode())
        for path in sorted(it for part in PARTS for it in (folder / part).rglob("*") if it.is_file()):
            made.update(f"{path.relative_to(folder)}\0".encode() + path.read_bytes() + b"\0")
        for used in self.crates[name][1]:
            made.update((self.sum(used) if used in self.crates else used).encode())
        return made.hexdigest()

    def place(self, name, tests):
        return KEPT / f"{name}-{self.sum(name)[:32]}{'-tests' if tests else ''}"

    def has(self, name, tests):
        return self.place(name, tests).is_dir()

    def take(self, name, tests):
        """Copies what was built of the crate to where the gate builds it, and tells whether it was there."""
        if not self.has(name, tests):
            return False
        shutil.copytree(self.place(name, tests), self.root / "crates" / name / "out", dirs_exist_ok=True)
        return True

    def keep(self, name, tests):
        """Copies what the gate built of the crate."""
        out, program = self.root / "crates" / name / "out", f"{name}_tests" if tests else name
        KEPT.mkdir(parents=True, exist_ok=True)
        with tempfile.TemporaryDirectory(dir=KEPT) as room:
            made = Path(room, "made")
            made.mkdir()
            for path in (out / "rlib", out / program, out / f"{program}.by-rattle"):
                if path.is_dir() and not tests:
                    shutil.copytree(path, made / path.name)
                elif path.is_file():
                    shutil.copy2(path, made)
            shutil.rmtree(self.place(name, tests), ignore_errors=True)
            made.rename(self.place(name, tests))


def kept_kit(root, names):
    """The kit's command as a module, whose gate runs in this repository for these crates, and takes what is kept."""
    rt = unproved.module("rtmain", unproved.rt_path())
    store = Store(root, rt.KIT)
    chosen, taken = below(names or store.crates, store.crates), set()
    by_kit, all_crates, all_edits, memory = rt.Crate.ci, rt.rtlib.crates_below, rt.edits_of, rt.need

    def ci(self, flags, tests):
        if store.take(self.name, tests):
            taken.add(self.name)
            return 0
        status = by_kit(self, flags, tests)
        if status == 0 and not self.is_static:
            store.keep(self.name, tests)
        return status

    rt.Crate.ci = ci
    rt.rtlib.crates_below = lambda folder: [it for it in all_crates(folder) if it.name in chosen]
    rt.edits_of = lambda crate: ([], []) if crate.name in taken else all_edits(crate)
    # What is only copied takes next to no memory.
    rt.need = lambda crate: 1 if store.has(crate.name, False) and not crate.has_tests() else memory(crate)
    # The files of crates that were not chosen are not the gate's affair here.
    rt.rtlib.stop_on_unread = lambda folder, crates: None
    return rt


def keeps(rt):
    """Whether the gate of the kit's module takes names, and keeps what passed."""
    return hasattr(rt, "Kept")


def kit():
    """The kit's command as a module."""
    return unproved.module("rtmain", unproved.rt_path())


@contextlib.contextmanager
def inside(root):
    """Works in a folder."""
    here = os.getcwd()
    os.chdir(root)
    try:
        yield
    finally:
        os.chdir(here)


def run(root, names, change=None):
    """Runs the gate for these crates in a repository, once the kit's module is changed. Returns its status."""
    rt = kit()
    call = functools.partial(rt.ci, False, names) if keeps(rt) else None
    if not call:
        rt = kept_kit(root, names)
        call = rt.ci
    if change:
        change(rt)
    with inside(root):
        return call()


class KitStore:
    """What the gate of the kit kept."""

    def __init__(self, root, rt):
        rt.Crate.allowed = rt.handles_of(str(root))
        self.crates = rt.crates_of(str(root))
        self.kept = rt.Kept(self.crates)

    def take(self, crate):
        """Lays out what was built of the crate, whose libraries are laid out, and tells whether it was there."""
        key = self.kept.key(crate)
        # The kit takes a file that is there already for damage, and forgets what it kept.
        if os.path.isdir(self.kept.place(crate, False, key)):
            shutil.rmtree(Path(crate.folder, "out/rlib"), ignore_errors=True)
        given = self.kept.give(crate, False, key)
        if given:
            self.kept.is_built(crate)
        return given


class OwnStore:
    """What this tool kept."""

    def __init__(self, root, rt):
        self.crates, self.store = rt.rtlib.crates_below(str(root)), Store(root, rt.KIT)

    def take(self, crate):
        """Lays out what was built of the crate, and tells whether it was there."""
        return self.store.take(crate.name, False)


def lay_out(root, names):
    """Puts the kept libraries below these crates where `rt check` builds them, with the stamps by which it knows them. Gives their names."""
    rt = kit()
    wanted, laid = below(names, crates_in(root)) - set(names), []
    with inside(root):
        store = KitStore(root, rt) if keeps(rt) else OwnStore(root, rt)
        for crate in store.crates:
            if crate.name in wanted and store.take(crate):
                Path(crate.folder, "out/rlib/stamp").write_text(crate.stamp(), encoding="utf-8")
                laid.append(crate.name)
    return laid


def main():
    names = sys.argv[1:]
    root = Path(__file__).resolve().parent.parent
    if names == ["--forget"]:
        shutil.rmtree(KEPT, ignore_errors=True)
        return 0
    if names[:1] == ["--lay"]:
        print("\n".join(lay_out(root, names[1:])))
        return 0
    unknown = [it for it in names if it not in crates_in(root)]
    if unknown:
        print(__doc__ if unknown[0].startswith("-") else f"crates.txt has no crate {unknown[0]}", file=sys.stderr)
        return 2
    return run(root, names)


if __name__ == "__main__":
    sys.exit(main())

"""Builds a static library of the repository, over its proofs or without proof, for bindings/build.py and bench/library.py."""
import os
import re
import shutil
import subprocess
import sys
import tempfile
from pathlib import Path

import kept
import unproved


def proved(crate, files, out):
    """Builds a static library in a copy of the repository, from code that the gate's commands prove there, over what `kept.py` has.
    Returns what was said."""
    words = [sys.executable, __file__, crate, out]
    ran = subprocess.run(words, cwd=files, stdin=subprocess.DEVNULL, stdout=subprocess.PIPE, stderr=subprocess.STDOUT, text=True)
    if not os.path.isfile(out):
        raise unproved.NotBuilt(ran.stdout)
    return ran.stdout


def prove_here(crate, out):
    """In a copy of the repository that is the current folder: proves the crate and those below it, and builds the static library."""

    def change(rt):
        by_default = rt.Crate.ci

        def ci(self, flags, tests):
            if self.is_static and not tests:
                words = self.words(flags, keeps=False)
                return self.prove(["build", *words, "--toolchain", f"{rt.KIT}/toolchain", "--backend", "llvm", "-o", out])
            return by_default(self, flags, tests)

        rt.Crate.ci = ci
        # Tests and must-fail edits are the gate's affair.
        rt.rtlib.Crate.has_tests = lambda self: False
        rt.edits_of = lambda crate: ([], [])

    return kept.run(Path.cwd(), [crate], change)


def without_proof(program, files, exports, room):
    """The object file of a program that calls these exports, with each in sight and its `main` out of it."""
    kit, text = unproved.code_of(files, program, room)
    text = unproved.without_marks(unproved.without_checks(text))
    for name in exports:
        text = re.sub(rf'@"[\w:]+::{name}"', f"@{name}", text)
        text = re.sub(rf"define internal ([^@\n]*@{name}\()", r"define \1", text)
    text = text.replace("define i32 @main(", "define internal i32 @unused_main(")
    return unproved.compiled(kit, text, room)


def objects_of(built, room):
    """The object files of an archive, taken out into a folder of their own."""
    folder = tempfile.mkdtemp(dir=room)
    subprocess.run(["ar", "x", os.path.abspath(built)], cwd=folder, check=True)
    return [f"{folder}/{name}" for name in sorted(os.listdir(folder))]


def archive(objects, out):
    """Puts object files into one archive."""
    with tempfile.TemporaryDirectory() as room:
        subprocess.run(["ar", "rcs", f"{room}/library.a", *objects], check=True)
        os.makedirs(os.path.dirname(os.path.abspath(out)), exist_ok=True)
        shutil.move(f"{room}/library.a", out)


if __name__ == "__main__":
    sys.exit(prove_here(*sys.argv[1:]))

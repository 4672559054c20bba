#!/usr/bin/env python3
"""Builds the library for C, crates/fancy_regex_c, as a static library.

    bindings/build.py OUT.a               over its proofs: a run of `rt ci` proves this crate, and what it did not prove before
    bindings/build.py --kept OUT.a        over its proofs, by `rt lib`: what `rt check` kept is not proved again
    bindings/build.py --unproved OUT.a    without proof, in a minute and a half of a processor

Both hold all that they need but the C library. The build without proof is of the code that `rt try` compiles, without the checks
that `rt try` adds, compiled as the gate compiles. It shows how the code behaves, and proves nothing."""
import os
import re
import subprocess
import sys
import tempfile

HERE = os.path.dirname(os.path.abspath(__file__))
ROOT = os.path.dirname(HERE)
CRATE = "fancy_regex_c"
sys.path.append(f"{ROOT}/tools")

import static_library
import unproved

# `rt try` compiles programs alone, so the exports are called by one.
MAIN = """
fn main(rt: HostRuntime) {
    let alloc = rt.alloc();
    let mut count = 0usize;
    let mut bytes = [0u8; 1];
    let mut spans = [plain::Span::absent(); 1];
    let mut members = [plain::Member::nothing_at(0); 1];
    let ends = [0usize; 1];
    let mut fault = plain::Fault::memory();
    let mut request = plain::Request { start: 0, end: 0, flags: 0, standing: 0 };
    let how = texts::Replacing { replacement: b"", limit: 0, literal: 0 };
    let mut options = reading::by_default();
    let mut regex = handle::Handle::none(alloc);
    let mut other = handle::Handle::none(alloc);
    let mut span = plain::Span::absent();
    let mut member = plain::Member::nothing_at(0);
"""
CALLS = {
    "alloc: Global": "alloc",
    "&Options": "&options",
    "&mut Options": "&mut options",
    "&mut Fault": "&mut fault",
    "&Fault": "&fault",
    "&Request": "&request",
    "&mut Request": "&mut request",
    "&mut Span": "&mut span",
    "&mut [Span]": "&mut spans",
    "&mut [Member]": "&mut members",
    "&mut Member": "&mut member",
    "&[usize]": "&ends",
    "&[u8]": 'b""',
    "&mut [u8]": "&mut bytes",
    "&mut usize": "&mut count",
    "&Replacing<'_>": "&how",
    "usize": "0",
    "u32": "0",
    "Global": "alloc",
}


def exports(files):
    """Each export: its module, its name and the types of its parameters."""
    folder = f"{files}/crates/{CRATE}/src"
    for name in sorted(os.listdir(folder)):
        if not name.endswith(".rt"):
            continue
        with open(f"{folder}/{name}", encoding="utf-8") as file:
            text = file.read()
        for found in re.finditer(r'pub extern "C" fn (\w+)\((.*?)\)\s*(?:->|\{|\n)', text, re.S):
            types = [it.split(":", 1)[1].strip() for it in found[2].split(",") if it.strip()]
            yield name.removesuffix(".rt"), found[1], types


def call(module, name, types):
    """A call of an export, for its code to be compiled."""
    words, handles = [], ["&mut regex", "&mut other"]
    for it in types:
        words.append(handles.pop(0) if it == "&mut Handle" else CALLS[it])
    return f"    let _ = {module}::{name}({', '.join(words)});\n"


def program_of(files):
    """Makes a program of the crate in a copy of the repository: `lib.rt` with a `main` that calls each export."""
    source = f"{files}/crates/{CRATE}/src"
    with open(f"{source}/lib.rt", encoding="utf-8") as file:
        text = file.read()
    calls = "".join(call(*it) for it in exports(files))
    with open(f"{source}/main.rt", "w", encoding="utf-8") as file:
        file.write(text + MAIN + calls + "}\n")
    os.remove(f"{source}/lib.rt")
    with open(f"{files}/crates.txt", encoding="utf-8") as file:
        lines = file.read().replace(f"{CRATE} staticlib:", f"{CRATE}:")
    with open(f"{files}/crates.txt", "w", encoding="utf-8") as file:
        file.write(lines)


def with_kit(objects, room, out):
    """Puts the objects and what they call of the kit's C code into one archive."""
    kit = unproved.module("rtlib", f"{os.path.dirname(unproved.rt_path())}/rtlib.py").KIT
    static_library.archive([*objects, *static_library.objects_of(f"{kit}/c/liblibc_c.a", room)], out)


def without_proof(out):
    """Builds the static library of the working tree without proof."""
    with tempfile.TemporaryDirectory(prefix="loftlavender-") as files, tempfile.TemporaryDirectory() as room:
        unproved.copy_files(files, None)
        program_of(files)
        names = [name for _, name, _ in exports(files)]
        with_kit([static_library.without_proof(CRATE, files, names, room)], room, out)


def over_kept_proofs(out):
    """Builds the static library of the working tree by `rt lib`."""
    crate = f"{ROOT}/crates/{CRATE}"
    subprocess.run(["rt", "lib"], cwd=crate, stdin=subprocess.DEVNULL, stdout=subprocess.DEVNULL, check=True)
    with tempfile.TemporaryDirectory() as room:
        with_kit(static_library.objects_of(f"{crate}/out/lib{CRATE}.a", room), room, out)


def over_proofs(out):
    """Builds the static library of the working tree over its proofs, from code that `rt ci` proves."""
    with tempfile.TemporaryDirectory(prefix="loftlavender-") as files, tempfile.TemporaryDirectory() as room:
        unproved.copy_files(files, None)
        with open(f"{files}/crates/{CRATE}/src/lib.rt", "a", encoding="utf-8") as source:
            source.write(f"\n// This copy is built in {room}.\n")
        static_library.proved(CRATE, files, f"{room}/built.a")
        with_kit(static_library.objects_of(f"{room}/built.a", room), room, out)


BUILDS = {"--unproved": without_proof, "--kept": over_kept_proofs}


def main():
    words = sys.argv[1:]
    build = BUILDS.get(words[0], over_proofs) if words else over_proofs
    words = [it for it in words if it not in BUILDS]
    if len(words) != 1:
        sys.exit(__doc__)
    try:
        build(words[0])
    except (unproved.NotBuilt, subprocess.CalledProcessError) as said:
        sys.exit(f"not built: {said}")


if __name__ == "__main__":
    main()

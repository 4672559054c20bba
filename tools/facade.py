#!/usr/bin/env python3
"""Says what stands in the public signatures and contracts of `fancy_regex` and cannot be named through that crate.

    tools/facade.py   ends with status 1 if a type, or a definition that a clause names, is not passed on

Public are the functions that `fancy_regex` re-exports, those of the laws' modules, and those in the impls and traits of the types
that it has. The types of a signature have to be among what `src/lib.rt` re-exports, and the modules of definitions in a clause
among the lines of `specs/Lib.antt`, or declared by such a type.
"""

import re
import sys
from pathlib import Path

CRATES = Path(__file__).resolve().parent.parent / "crates"
FACADE = CRATES / "fancy_regex"
LANGUAGE = set(
    "Self Item Result Option String Vec Global CowStr Range AllocError AllocFailed FnMut Drop Sized Copy Formatter Write".split()
)

REEXPORT = re.compile(r"^pub use (\w+)(?:::[\w:]+)?::(?:\{([^}]*)\}|(\w+(?: as \w+)?));", re.M)
GHOST_USE = re.compile(r"ghost use (Rattle\.fancy_\w+\.specs\.[\w.]+?)\.\{([^}]*)\};")
OWNER = re.compile(r"^(?:impl\b|pub trait \w+)")
FUNCTION = re.compile(r"^(\s*)(pub )?(?:final )?fn (\w+)")
GHOST = re.compile(r"^\s*ghost (?!use)(\w+)")


def re_exports():
    """The names that `fancy_regex` has, each with its crate, and the files whose public functions it has as laws."""
    names, laws = {}, [FACADE / "src/laws.rt"]
    for root, several, single in REEXPORT.findall((FACADE / "src/lib.rt").read_text()):
        crate = root if (CRATES / root).is_dir() else FACADE.name
        for name in (one.partition(" as ")[0].strip() for one in (several or single).split(",")):
            module = CRATES / crate / "src" / f"{name}.rt"
            if module.exists():
                laws.append(module)
            else:
                names[name] = crate
    return names, laws


def passed_on():
    """The modules of definitions that `fancy_regex` has or passes on."""
    lines = (FACADE / "specs/Lib.antt").read_text()
    own = {f"Rattle.fancy_regex.specs.{name}" for name in re.findall(r"^pub mod (\w+)", lines, re.M)}
    return own | set(re.findall(r"^pub use (Rattle\.\S+)", lines, re.M))


def without_arguments(head):
    """The head of an impl without what is in angle brackets."""
    while re.search(r"<[^<>]*>", head):
        head = re.sub(r"<[^<>]*>", "", head)
    return head


def owners_of(head, types):
    """The public types that an impl or a trait is of."""
    subject = without_arguments(head.replace("->", "")).split(" for ")[-1]
    return [name for name in types if re.search(rf"\b{name}\b", subject)]


def signature_at(lines, start):
    """The signature that begins at a line, and the clauses after it."""
    end = start
    while not re.match(r"\s*\{\}?$", lines[end]) and not re.search(r"[;{]$", lines[end]):
        end += 1
    text = "\n".join(lines[start : end + 1])
    clauses = re.search(r"^\s+(requires|ensures)\b", text, re.M)
    return (text[: clauses.start()], text[clauses.start() :]) if clauses else (text, "")


def public_parts(path, types, all_public):
    """Each public function of a file with its signature and clauses, and each ghost member of a public impl."""
    lines, head = path.read_text().split("\n"), None
    for at, line in enumerate(lines):
        if OWNER.match(line):
            head = " ".join(lines[at : at + 3]).split("{")[0]
        elif line.startswith("}"):
            head = None
        function, ghost = FUNCTION.match(line), GHOST.match(line)
        shown = head and owners_of(head, types)
        of_trait = head and (head.startswith("pub trait") or " for " in without_arguments(head))
        free = function and head is None and function.group(2) and (all_public or function.group(3) in types)
        if free or function and shown and (function.group(2) or of_trait):
            yield function.group(3), *signature_at(lines, at)
        elif ghost and shown:
            yield ghost.group(1), "", line


def cited(source, text):
    """The modules of the definitions that a clause names."""
    for module, names in GHOST_USE.findall(source):
        for name in names.split(","):
            name = name.strip().split(" as ")[-1].strip("◌ ")
            if re.search(rf"(?<![\w.]){re.escape(name)}(?!\w)", text):
                yield module


def is_declared(module, types):
    """Whether a module of declared types is that of a public type."""
    parts = module.split(".declared.")
    return len(parts) == 2 and any(name in types for name in parts[1].split("."))


def main():
    types, laws = re_exports()
    modules, lacking, functions = passed_on(), set(), 0
    for path in sorted(CRATES.glob("fancy_*/src/**/*.rt")):
        source, crate = path.read_text(), path.relative_to(CRATES).parts[0]
        own = [name for name in types if types[name] == crate]
        for name, signature, clauses in public_parts(path, own, path in laws):
            functions += bool(signature)
            for word in set(re.findall(r"\b[A-Z]\w+", signature)) - set(types) - LANGUAGE:
                lacking.add(f"{path.relative_to(CRATES)}: {name} has the type {word}")
            for module in set(cited(source, clauses)) - modules:
                if not is_declared(module, types):
                    lacking.add(f"{path.relative_to(CRATES)}: {name} cites {module}")
    print("\n".join(sorted(lacking)) if lacking else f"{functions} public functions name nothing else.")
    return 1 if lacking else 0


if __name__ == "__main__":
    sys.exit(main())

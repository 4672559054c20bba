#!/usr/bin/env python3
"""Tries the wrong bodies of a crate, and writes what refused each into its table.

    tools/planted.py fancy_template               tries each edit of crates/fancy_template/planted/, and writes the README.md there
    tools/planted.py fancy_template write escape  tries the edits whose names have one of these words, and writes nothing

It works in a clone of the last commit, in a folder for temporary files. There it checks the crate once, over what tools/kept.py has of
the crates below it, and then each edit over that, one after another: first the module of the edited file alone, and
where that is still proved, the whole crate. An edit that does not apply or does not compile says nothing of a contract, nor does
one that only takes away a name that a proof cites, or that ends at a limit of the prover: each is named.

The last line has the counts. The status is 0 where each edit was refused."""
import datetime
import os
import re
import shutil
import subprocess
import sys
import tempfile
from collections import Counter
from pathlib import Path

import kept

ROOT = Path(__file__).resolve().parent.parent
PAGE = """# Wrong bodies of `{crate}`

Written by `tools/planted.py {crate}` on {date}, at commit {commit}. Each edit is a file here. "What is not proved" has the goals
that the prover left: a name that ends in `clause-NAME` is the clause `NAME` of the function, and others are the steps to it.

| Edit | What came of it | Function | What is not proved |
|---|---|---|---|
{rows}

{counts}
"""
REFUSED, BY_NAMES, BY_A_LIMIT = "refused", "refused by names alone", "refused by a limit alone"
PROVED, UNCOMPILED, UNAPPLIED, UNKNOWN = "still proved", "does not compile", "does not apply", "no verdict"
OUTCOMES = (REFUSED, BY_NAMES, BY_A_LIMIT, PROVED, UNCOMPILED, UNAPPLIED, UNKNOWN)
GOAL = re.compile(r"(?:\d: error: |is not proved .*\()`([\w+-]+)`")
FUNCTION = re.compile(r"^(?:fn|impl|struct|enum|trait) \w+::(.*): (?:not proved|no proof)", re.M)
# An error in a proof file that cites what the edit took away.
OF_A_NAME = re.compile(r"(?:\./)?proofs/\S+ error: .*(?:has no field|is not in scope|has no `|was not admitted)")
ERROR = re.compile(r"^(?!note: )\S+:\d+:\d+: error", re.M)
LIMIT = re.compile(r"antt ran out of |outgrew the memory limit|stopped at the step limit")
SHOWN = 6


class Unfit(Exception):
    """The edit cannot be applied; the text says why."""


def run(*words, folder):
    """Runs a command, and gives its status and all that it said."""
    ran = subprocess.run(words, cwd=folder, stdin=subprocess.DEVNULL, stdout=subprocess.PIPE, stderr=subprocess.STDOUT, text=True, errors="replace")
    return ran.returncode, ran.stdout


def texts_of(edit, crate):
    """The texts of the files that an edit changes, by their paths in the crate."""
    texts, path, old = {}, None, None
    for line in edit.read_text(encoding="utf-8").splitlines():
        word, _, rest = line.partition(":")
        rest = rest.removeprefix(" ")
        if word == "file":
            path = rest.strip()
            if path not in texts:
                if not (crate / path).is_file():
                    raise Unfit(f"there is no file `{path}`")
                texts[path] = (crate / path).read_text(encoding="utf-8")
        elif word == "old":
            old = rest
            count = texts[path].count(old)
            if count != 1:
                raise Unfit(f"an `old:` text is in `{path}` {count} times")
        elif word == "new":
            texts[path] = texts[path].replace(old, rest)
    return texts


def module_of(texts):
    """The module whose file an edit changes, where it is one and not the root."""
    modules = [re.fullmatch(r"src/(.+?)(?:/mod)?\.rt", it) for it in texts]
    if len(modules) != 1 or not modules[0] or modules[0][1] in ("lib", "main"):
        return None
    return modules[0][1].replace("/", "::")


def linked(one, other):
    """Copies a file of kept work. A check replaces what was proved and does not change it, so a link will do."""
    return os.link(one, other) if one.endswith(".oantt") else shutil.copy2(one, other)


def outcome_of(status, said):
    """What a check that did not pass says of the edit."""
    if re.search(r"\berror\[[\w-]+\]", said):
        return UNCOMPILED
    if status == 3 and LIMIT.search(said):
        return BY_A_LIMIT
    if status != 1 or not FUNCTION.search(said):
        return UNKNOWN
    errors = [line for line in said.splitlines() if ERROR.match(line)]
    if errors and all(OF_A_NAME.match(line) for line in errors) and not re.search(r"is not proved .*\(`", said):
        return BY_NAMES
    return REFUSED


def code_list(names):
    """Names in a cell of the table, each once."""
    names = list(dict.fromkeys(names))
    more = f" and {len(names) - SHOWN} more" if len(names) > SHOWN else ""
    return ", ".join(f"`{it}`" for it in names[:SHOWN]) + more


def tried(edit, crate, seed):
    """Tries an edit in a clone: what came of it, the functions that are not proved, and the goals that are left."""
    try:
        texts = texts_of(edit, crate)
    except Unfit as why:
        return UNAPPLIED, "", str(why)
    proved = crate / "out/incremental"
    shutil.rmtree(proved, ignore_errors=True)
    shutil.copytree(seed, proved, symlinks=True, copy_function=linked)
    was = {path: (crate / path).read_text(encoding="utf-8") for path in texts}
    for path, text in texts.items():
        (crate / path).write_text(text, encoding="utf-8")
    try:
        module = module_of(texts)
        status, said = run("rt", "check", "--only", module, folder=crate) if module else (0, "")
        if status == 0 or status == 2:
            status, said = run("rt", "check", folder=crate)
    finally:
        for path, text in was.items():
            (crate / path).write_text(text, encoding="utf-8")
    if status == 0:
        return PROVED, "", ""
    outcome = outcome_of(status, said)
    if outcome in (UNCOMPILED, UNKNOWN):
        error = next((line for line in said.splitlines() if "error" in line), said.splitlines()[-1])
        return outcome, "", re.sub(r"[|`]", "", error)[:120]
    return outcome, code_list(FUNCTION.findall(said)), code_list(GOAL.findall(said))


def output(*words):
    """What a command of git prints."""
    return subprocess.run(["git", "-C", str(ROOT), *words], capture_output=True, text=True, check=True).stdout.strip()


def main():
    if len(sys.argv) < 2 or sys.argv[1].startswith("-"):
        sys.exit(__doc__)
    name, words = sys.argv[1], sys.argv[2:]
    edits = sorted((ROOT / "crates" / name / "planted").glob("*.edit"))
    edits = [it for it in edits if not words or any(word in it.stem for word in words)]
    if not edits:
        sys.exit(f"crates/{name}/planted has no such edit")
    if output("status", "--porcelain", "--untracked-files=no", "--", "crates"):
        print("planted: files of crates/ are changed and not committed: the last commit is what is tried", file=sys.stderr)
    rows, counts = [], Counter()
    with tempfile.TemporaryDirectory(prefix="loftlavender-") as room:
        subprocess.run(["git", "clone", "--quiet", str(ROOT), f"{room}/clone"], check=True)
        crate, seed = Path(room) / "clone/crates" / name, f"{room}/seed"
        kept.lay_out(Path(room) / "clone", [name])
        status, said = run("rt", "check", folder=crate)
        if status:
            sys.exit("the crate is not proved as it stands:\n" + "\n".join(said.splitlines()[-5:]))
        shutil.copytree(crate / "out/incremental", seed, symlinks=True, copy_function=linked)
        for edit in edits:
            outcome, functions, goals = tried(edit, crate, seed)
            counts[outcome] += 1
            rows.append(f"| `{edit.stem}` | {outcome} | {functions} | {goals} |")
            print(rows[-1], flush=True)
    line = f"{len(edits)} edits: " + ", ".join(f"{counts[it]} {it}" for it in OUTCOMES if counts[it])
    if not words:
        page = PAGE.format(crate=name, date=datetime.date.today().isoformat(), commit=output("rev-parse", "--short=9", "HEAD"), rows="\n".join(rows), counts=line)
        (ROOT / "crates" / name / "planted/README.md").write_text(page, encoding="utf-8")
    print(line)
    return 0 if counts[REFUSED] == len(edits) else 1


if __name__ == "__main__":
    sys.exit(main())

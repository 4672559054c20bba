#!/usr/bin/env python3
"""What share of the patterns that others wrote builds here, and for what the others are refused.

    tools/real_patterns.py          of each source the share, the refusals by kind, and an example of each kind
    tools/real_patterns.py --list   each refused pattern in place of the examples

The patterns are those of the lexers of Pygments, and the constants that Python's standard library and the packages of pip hand to
`re.compile`, `re.match`, `re.sub` and their kin, but for those of tests, which are wrong on purpose. A pattern counts once with
its flags `i`, `m`, `s` and `x`, and `a` for one of bytes. A source that is not there is named, and the others are asked.

It counts what builds, and not what means the same: Python's `re` reads `\\Z`, `\\h` and others otherwise (docs/COMING_FROM.md).
The program `calls` is asked: the one that CALLS names, a proved one, or one that is built without proof, as by model/agree."""
import ast
import importlib.metadata
import re
import site
import sys
import sysconfig
import warnings
from collections import Counter
from pathlib import Path

import asking
import coming
import unproved

MODEL = Path(asking.HERE).parent / "model"
LETTERS = {re.IGNORECASE: "i", re.MULTILINE: "m", re.DOTALL: "s", re.VERBOSE: "x"}
# At which place a function of `re` takes its flags.
FLAGS_AT = {"compile": 1, "match": 2, "search": 2, "fullmatch": 2, "findall": 2, "finditer": 2, "split": 3, "sub": 4, "subn": 4}
TESTS = re.compile(r"(idle_)?tests?|testing|test_.*")
SHOWN_AROUND_FAULT = 30


def asked_as(pattern, flags):
    """The pattern as a text, and the letters of its options. Of bytes, one past U+007F is written by its number."""
    letters = "".join(letter for flag, letter in LETTERS.items() if flags & flag)
    if isinstance(pattern, str):
        return pattern, letters
    return "".join(chr(byte) if byte < 128 else f"\\x{byte:02x}" for byte in pattern), letters + "a"


def of_pygments():
    """The patterns of the lexers. Where the rules stand ready for each variant of a language, all are taken."""
    from pygments.lexers import find_lexer_class, get_all_lexers
    for name, *_ in get_all_lexers(plugins=False):
        lexer = find_lexer_class(name)
        if hasattr(lexer, "get_tokendefs"):
            variants = lexer.tokens.values() if getattr(lexer, "token_variants", False) else [lexer.get_tokendefs()]
            for rule in (rule for states in variants for rules in states.values() for rule in rules):
                if isinstance(rule, tuple):
                    yield asked_as(rule[0] if isinstance(rule[0], str) else rule[0].get(), lexer.flags)


def flags_of(call):
    """The flags that a call names."""
    given = [one.value for one in call.keywords if one.arg == "flags"] + call.args[FLAGS_AT[call.func.attr]:][:1]
    words = [node.attr for one in given for node in ast.walk(one) if isinstance(node, ast.Attribute)]
    return sum({getattr(re, word) for word in words if isinstance(getattr(re, word, None), re.RegexFlag)})


def of_source(source):
    """The constants that a source hands to the functions of `re`."""
    nodes = list(ast.walk(ast.parse(source)))
    names = {one.asname or one.name for node in nodes if isinstance(node, ast.Import) for one in node.names if one.name == "re"}
    for node in nodes:
        if isinstance(node, ast.Call) and isinstance(node.func, ast.Attribute) and isinstance(node.func.value, ast.Name):
            first = node.args[0] if node.args else None
            is_of_re = node.func.value.id in names and node.func.attr in FLAGS_AT
            if is_of_re and isinstance(first, ast.Constant) and isinstance(first.value, (str, bytes)):
                yield asked_as(first.value, flags_of(node))


def of_folder(folder, without=()):
    """The patterns of the sources of a folder that are no tests."""
    for path in sorted(folder.rglob("*.py")):
        inside = path.relative_to(folder).with_suffix("").parts
        is_wanted = inside[0] not in without and not any(TESTS.fullmatch(part) for part in inside)
        if is_wanted and re.search(rb"\bre\b", path.read_bytes()):
            try:
                yield from of_source(path.read_bytes())
            except (SyntaxError, ValueError):
                print(f"not read: {path}", file=sys.stderr)


def sources():
    """What each source is called, and its patterns."""
    versions = {one.metadata["Name"].lower(): one.version for one in importlib.metadata.distributions()}
    version = versions.get("pygments")
    yield f"Lexers of Pygments {version or ''}".rstrip(), of_pygments() if version else ()
    library = Path(sysconfig.get_paths()["stdlib"])
    yield f"Standard library of Python {sys.version.split()[0]}", of_folder(library, ("site-packages", "dist-packages"))
    yield f"{len(versions)} packages of pip", (it for folder in site.getsitepackages() for it in of_folder(Path(folder)))


def fault_of(pattern, answer, names):
    """Why a pattern is refused and where, and None where it builds: of three calls the last has the options of the line."""
    built = asking.halves(answer)[0][2]
    said = re.fullmatch(r"!(?:parsing error at position (\d+): |error compiling regex: )?(.*)", built, re.S)
    if said:
        place = len(pattern.encode()[:int(said[1] or 0)].decode(errors="ignore"))
        return next((name for told, name in names if told.fullmatch(said[2])), said[2]), place


def faults(patterns):
    """Why each pattern is refused and where, and None where it builds."""
    words = coming.WORDS.findall(coming.ERRORS.read_text())
    names = [(re.compile(re.escape(text).replace(r"\{0\}", ".*")), name) for text, name in words]
    surrogates = {asked: re.search("[\ud800-\udfff]", asked[0]) for asked in sorted(patterns)}
    found = {asked: ("no text (surrogates)", surrogate.start()) for asked, surrogate in surrogates.items() if surrogate}
    texts = [asked for asked in surrogates if asked not in found]
    status, answers, _ = asking.run([asking.line("build", letters or "-", pattern, "") for pattern, letters in texts])
    if status or len(answers) != len(texts):
        sys.exit(f"calls ended with status {status} after {len(answers)} of {len(texts)} answers")
    return found | {asked: fault_of(asked[0], answer, names) for asked, answer in zip(texts, answers)}


def sums(title, found):
    """How many patterns there are, how many of them build, and how many are refused for what."""
    lost = Counter(fault[0] for fault in found.values() if fault).most_common()
    built = sum(not fault for fault in found.values())
    share = f"{title}: {len(found)} patterns, {built} build ({built / max(1, len(found)):.2%}), {len(found) - built} are refused"
    return share + ": " * bool(lost) + ", ".join(f"{count} {kind}" for kind, count in lost)


def tell(title, found, is_list):
    """Prints what of a source builds, and what is refused, shortest first."""
    print(sums(title, found) if found else f"{title}: not there")
    for kind in sorted({fault[0] for fault in found.values() if fault}):
        lost = sorted((asked for asked in found if found[asked] and found[asked][0] == kind), key=lambda asked: len(asked[0]))
        for pattern, letters in lost if is_list else lost[:1]:
            around = pattern[max(0, found[pattern, letters][1] - SHOWN_AROUND_FAULT):][:2 * SHOWN_AROUND_FAULT]
            print(f"    {kind}: {ascii(pattern if is_list else around)} {letters}".rstrip())


def main():
    warnings.simplefilter("ignore")
    sys.path.append(str(MODEL))
    asking.CALLS = unproved.module("agree", str(MODEL / "agree")).program("calls")
    everything = {}
    for title, patterns in sources():
        found = faults(set(patterns))
        everything.update(found)
        tell(title, found, "--list" in sys.argv)
    print(sums("All, each once", everything))


if __name__ == "__main__":
    sys.exit(main())

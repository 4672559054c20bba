"""The workloads, by groups of users."""
import json
import os

HERE = os.path.dirname(os.path.abspath(__file__))

# The groups, in the order of the tables, and who has such workloads.
GROUPS = {
    "highlighters": "highlighters, which ask each line",
    "pretokenisers": "tokenisers of language models, over whole documents",
    "logs": "logs: fields, times, addresses",
    "masks": "masks and rewriting, by replacement",
    "secrets": "scanners for secrets in sources",
    "words": "words and keywords in English text",
    "sources": "search in sources and pages",
    "csv": "tables in text",
    "lexers": "lexers, as lists of tokens",
    "scripts": "text in several scripts",
    "short": "texts of some 20 bytes",
    "documents": "a text of a few thousand bytes, of which one answer is asked, or a few matches",
    "parts": "parts of files, of 1,000 and of 4,000 bytes",
    "held": "texts of some 20 bytes, in memory that the caller holds",
    "built-anew": "a pattern that is built anew for each line",
    "hard": "hard patterns",
    "attacks": "patterns and texts that make backtracking slow",
}


def load(name):
    """What a file of this folder has."""
    with open(f"{HERE}/{name}", encoding="utf-8") as file:
        return json.load(file)


def read():
    """All workloads, each with its group."""
    return [{"group": group, **work} for group in GROUPS for work in load(f"workloads/{group}.json")]


def chosen(words):
    """The workloads whose group or name is one of these, all where there is none."""
    works = read()
    known = {it for work in works for it in (work["group"], work["id"])}
    for word in words:
        if word not in known:
            raise SystemExit(f"no group and no workload is named {word}")
    return [it for it in works if not words or it["group"] in words or it["id"] in words]


def pattern_of(work):
    """The pattern as a table shows it."""
    pattern = work["pattern"] if "pattern" in work else "  ".join(work["kinds"])
    if "kinds" in work and len(pattern) > 70:
        return f"{len(work['kinds'])} patterns"
    return pattern if len(pattern) <= 70 else pattern[:68] + " .."

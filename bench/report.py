"""Writes RESULTS.md of what results.json keeps: of each workload and peer the last measurement."""
import collections
import json
import math
import os

import workloads
from peers import PEERS

HERE = os.path.dirname(os.path.abspath(__file__))
KEPT = f"{HERE}/results.json"
# A peer's mean stands in the table of a group where it has at least this share of the workloads.
ENOUGH = .5


def read():
    """What earlier runs kept: runs, by number, and measurements, by workload and peer."""
    try:
        with open(KEPT, encoding="utf-8") as file:
            return json.load(file)
    except OSError:
        return {"runs": [], "found": {}}


def write(kept):
    """Keeps the measurements, a line for each workload, without runs of which nothing is left."""
    used = sorted({it["run"] for row in kept["found"].values() for it in row.values()})
    number = {old: new for new, old in enumerate(used)}
    for row in kept["found"].values():
        for it in row.values():
            it["run"] = number[it["run"]]
    kept["runs"] = [kept["runs"][it] for it in used]
    rows = ",\n".join(f"{json.dumps(name)}: {json.dumps(row, separators=(',', ':'))}" for name, row in kept["found"].items())
    runs = ",\n".join(json.dumps(it, ensure_ascii=False) for it in kept["runs"])
    with open(KEPT, "w", encoding="utf-8") as file:
        file.write(f'{{"runs": [\n{runs}\n],\n"found": {{\n{rows}\n}}}}\n')


def number(value):
    """Three digits."""
    if value >= 1000:
        return f"{value:.0f}"
    return f"{value:.1f}" if value >= 10 else f"{value:.3g}"


def answer(found):
    return found["matches"], found["checksum"]


def usual(row):
    """The answer of most peers."""
    answers = collections.Counter(answer(it) for it in row.values() if it["status"] == "ok")
    return answers.most_common(1)[0][0] if answers else None


def ns_per_byte(found, work):
    return found["ns"] / max(work["bytes"], 1)


def cell(row, peer, work):
    """How a table shows a measurement of time."""
    found = row.get(peer)
    if found is None or found["status"] == "left out":
        return ""
    if found["status"] != "ok":
        word = found["status"].split(":")[0]
        return "—" if word == "refused" else word
    return number(ns_per_byte(found, work)) + ("" if answer(found) == usual(row) else " ≠")


def plain(key):
    """How a table shows another number of a measurement."""
    def show(row, peer, _work):
        found = row.get(peer)
        return number(found[key]) if found and found["status"] == "ok" else ""
    return show


def heading(first, peers):
    """The first two lines of a table with a column for each peer."""
    return [f"| {first} | " + " | ".join(PEERS[it][2] for it in peers) + " |", "|---|" + "---:|" * len(peers)]


def table(works, peers, found, show, with_means=False):
    """A table with a row for each workload and a column for each peer."""
    lines = heading("workload", peers)
    for work in works:
        cells = [show(found[work["id"]], peer, work) for peer in peers]
        lines.append(f"| {work['id']} | " + " | ".join(cells) + " |")
    if with_means:
        for name, values in means(works, peers, found):
            if any(values):
                lines.append(f"| {name} | " + " | ".join(values) + " |")
    return lines


def mean(values):
    """The geometric mean."""
    return math.exp(sum(map(math.log, values)) / len(values))


def times(works, peer, found):
    """The time of each workload that the peer did, by its name."""
    rows = ((work, found[work["id"]].get(peer)) for work in works)
    return {work["id"]: max(ns_per_byte(it, work), 1e-4) for work, it in rows if it and it["status"] == "ok"}


def means(works, peers, found):
    """The last rows of a group's table: geometric means, and how much more this library takes where both did."""
    ours, all_means, ratios = times(works, "port", found), [], []
    for peer in peers:
        theirs = times(works, peer, found)
        is_enough = theirs and len(theirs) >= ENOUGH * len(works)
        all_means.append(f"**{number(mean(theirs.values()))}** ({len(theirs)})" if is_enough else "")
        both = [ours[it] / theirs[it] for it in theirs if it in ours]
        ratios.append(f"{mean(both):.2f}" if both and is_enough else "")
    yield "**geometric mean** (of how many)", all_means
    yield "this library to it", ratios


def head(runs, works, found):
    """What was measured, when and where."""
    lines = ["# Peers, side by side", "",
             "Written by `bench/run`; [README.md](README.md) says how it measures. Times are nanoseconds for each byte of the haystack, for",
             "searching alone; building a pattern and memory have tables of their own. `—`: the peer refuses the pattern; `over 5 s`: it was",
             "stopped; `failed`: it met a limit; `≠`: its answer is not that of most peers; empty: it was not asked.", ""]
    for at, run in enumerate(runs):
        ids = {name for name, row in found.items() if any(it["run"] == at for it in row.values())}
        peers = [it for it in PEERS if any(row.get(it, {}).get("run") == at for row in found.values())]
        versions = (f"{PEERS[it][2]} {run['versions'].get(it, '')}".strip() for it in peers)
        built = f"; this library is built {run['library']}" if {"port", "seek"} & set(peers) else ""
        lines.append(f"- {run['date']}, commit {run['commit']}, {run['machine']}, load {run['load']} before and {run['load_after']} after; "
                     f"{len(ids)} of {len(works)} workloads in {run['minutes']:.1f} minutes, rounds: {run['rounds']}{built}. "
                     f"Peers: {', '.join(versions)}.")
    return lines + [""]


def in_a_row(text):
    """A text as a table's cell."""
    return " ".join(text.split()).replace("|", "\\|")


def differences(works, found):
    """Where an answer differs, and what a peer said that gave none."""
    lines = ["| workload | peer | answer, or what it said | most peers |", "|---|---|---|---|"]
    for work in works:
        row = found[work["id"]]
        for peer, it in row.items():
            if it["status"] == "ok" and answer(it) != usual(row):
                most = usual(row)
                told = f"{it['matches']} matches, sum {it['checksum']}"
                lines.append(f"| {work['id']} | {PEERS[peer][2]} | {told} | {most[0]}, sum {most[1]} |")
            elif it["status"].startswith(("failed", "crashed")):
                lines.append(f"| {work['id']} | {PEERS[peer][2]} | {in_a_row(it['status'])} | |")
    return lines


def write_page(kept, path=f"{HERE}/RESULTS.md"):
    """Writes RESULTS.md."""
    found = kept["found"]
    works = [it for it in workloads.read() if it["id"] in found]
    for work in works:
        work["bytes"] = max(it["bytes"] for it in found[work["id"]].values())
    peers = [it for it in PEERS if any(it in row for row in found.values())]
    groups = {it["group"]: [] for it in works}
    for work in works:
        groups[work["group"]].append(work)
    out = head(kept["runs"], works, found)
    out += ["## Geometric means by group", ""]
    out += heading("group", peers)
    for group, chosen in groups.items():
        (_, values), _ = means(chosen, peers, found)
        out.append(f"| {group} | " + " | ".join(it.replace("**", "") for it in values) + " |")
    for group, chosen in groups.items():
        users = workloads.GROUPS[group]
        out += ["", f"## {group.capitalize()}", "", users[0].upper() + users[1:] + ".", ""]
        out += table(chosen, peers, found, cell, with_means=True)
    out += ["", "## Building a pattern: microseconds", ""] + table(works, peers, found, plain("compile_us"))
    out += ["", "## Memory: peak of the resident set over that before, KiB", ""] + table(works, peers, found, plain("kib"))
    out += ["", "## Answers that differ, and peers that gave none", ""] + differences(works, found)
    out += ["", "## Workloads", "", "| workload | operation | haystack | bytes | matches | pattern |", "|---|---|---|---:|---:|---|"]
    for work in works:
        most = usual(found[work["id"]])
        count, pattern = most[0] if most else "", in_a_row(workloads.pattern_of(work))
        out.append(f"| {work['id']} | {work['operation']} | {work['haystack']} | {work['bytes']} | {count} | `` {pattern} `` |")
    with open(path, "w", encoding="utf-8") as file:
        file.write("\n".join(out) + "\n")

#!/usr/bin/env python3
"""The driver of Python's `re`: as driver/src/lib.rs says. Spans are turned into byte offsets outside the timed runs."""
import json
import re
import sys
import time


def read():
    """The operation, the haystack, the replacement and the pattern."""
    operation, path, replacement, *patterns = sys.stdin.buffer.read().decode().split("\0")[:-1]
    with open(path, encoding="utf-8", newline="") as file:
        haystack = file.read()
    pattern = patterns[0] if len(patterns) == 1 else "|".join(f"({it})" for it in patterns)
    return operation, haystack, re.sub(r"\$\{(\w+)\}", r"\\g<\1>", replacement), pattern


def matches_of(operation, code, text, replacement):
    """Does the operation once and gives how many matches it counts."""
    if operation == "replace_all":
        code.sub(replacement, text)
        return 1
    if operation == "split":
        return len(code.split(text))
    if operation == "is_match":
        return int(code.search(text) is not None)
    if operation == "fresh_lines":
        return sum(fresh(code.pattern).search(line) is not None for line in text.split("\n"))
    if operation in ("find_lines", "find_lines_held", "captures_lines"):
        return sum(code.search(line) is not None for line in text.split("\n"))
    if operation in ("find_all", "set_all"):
        return sum(1 for _ in code.finditer(text))
    return sum(match.groups() is not None for match in code.finditer(text))


def fresh(pattern):
    """The pattern, built anew."""
    re.purge()
    return re.compile(pattern)


def spans(match, with_groups):
    """The groups of a match that took part: their numbers, starts and ends."""
    for group in range(match.re.groups + 1 if with_groups else 1):
        if match.start(group) >= 0:
            yield group, match.start(group), match.end(group)


def checksum(operation, code, text, replacement):
    """The sum by which answers are compared."""
    def size(part):
        return len(part.encode())

    def found(where):
        with_groups = operation in ("captures_all", "captures_lines", "tokens")
        places = None if where.isascii() else [0]
        if places:
            for character in where:
                places.append(places[-1] + size(character))
        is_list = operation in ("find_all", "captures_all", "tokens", "set_all")
        for match in code.finditer(where) if is_list else filter(None, [code.search(where)]):
            for group, start, end in spans(match, with_groups):
                yield group, places[start] if places else start, places[end] if places else end

    if operation == "is_match":
        return 0
    if operation == "replace_all":
        parts = [(0, 0, size(code.sub(replacement, text)))]
    elif operation == "split":
        parts = [(0, 0, size(piece)) for piece in code.split(text)]
    elif operation in ("find_lines", "find_lines_held", "captures_lines", "fresh_lines"):
        parts = (it for line in text.split("\n") for it in found(line))
    else:
        parts = found(text)
    return sum(start * 31 + end + group * 1009 for group, start, end in parts) % (1 << 64)


def status_kib(field):
    with open("/proc/self/status", encoding="utf-8") as file:
        return next(int(line.split()[1]) for line in file if line.startswith(field))


def report(operation, text, replacement, pattern):
    """What the line of a workload says."""
    try:
        with open("/proc/self/clear_refs", "w", encoding="utf-8") as file:
            file.write("5")
    except OSError:
        pass
    before = status_kib("VmRSS")
    compile_us = 1e18
    try:
        for _ in range(5):
            start = time.thread_time_ns()
            code = fresh(pattern)
            compile_us = min(compile_us, (time.thread_time_ns() - start) / 1000)
    except re.error as error:
        return {"status": f"refused: {error}"}
    start = time.thread_time_ns()
    matches = matches_of(operation, code, text, replacement)
    first = time.thread_time_ns() - start
    times = min(max(int(5e6 / max(first, 1)), 1), 100000)
    least, begun = 1e18, time.thread_time_ns()
    for batch in range(60):
        spent = time.thread_time_ns() - begun
        if spent > 1e9 or batch >= 3 and spent > 1e8:
            break
        start = time.thread_time_ns()
        for _ in range(times):
            matches_of(operation, code, text, replacement)
        least = min(least, (time.thread_time_ns() - start) / times)
    kib = max(status_kib("VmHWM") - before, 0)
    total = checksum(operation, code, text, replacement)
    return {"status": "ok", "matches": matches, "checksum": total, "ns": round(least, 1), "compile_us": round(compile_us, 2), "kib": kib}


print(json.dumps(report(*read())))

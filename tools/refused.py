"""Makes each call of tools/table.py, and each command of `fre` there, with the Nth request for memory refused, for N from 1 on until a
call meets no refusal: alone, and with all requests after it. An answer is the right one, or `Memory` with what the call promises to leave,
or is counted as a third one. Then makes the calls that take no memory with every request refused.

    python3 tools/refused.py [--only calls|fre] [--third]

With `--third`, one row is asked alone of which the expected answer is wrong: a third answer must be counted for each of its runs.
"""
import argparse
import os
import subprocess
import sys
import tempfile

import asking
import table

MEMORY = '!out of memory'
KEPT = MEMORY + ' left ' + table.x('t')
MODES = ((False, 'one request'), (True, 'a request and all after it'))


def is_refused_here(row, at, item, wanted):
    """Whether an item of calls that do not depend on each other is right or a refusal, which leaves a target as it was."""
    kept = row[0] == 'expand' and at > 0 and item == KEPT
    return item == wanted or item == MEMORY or kept


def is_each(row, wanted, got, alone):
    """Whether each call is right or refused: one, where one request is refused."""
    wrong = [item for item, right in zip(got, wanted) if item != right]
    return len(got) == len(wanted) and (len(wrong) == 1 or not alone) and all(
        is_refused_here(row, at, *items) for at, items in enumerate(zip(got, wanted)))


def is_cut(wanted, got):
    """Whether a list is right up to a refusal, and then ends."""
    return got[-1:] == [MEMORY] and got[:-1] == wanted[:len(got) - 1]


def is_cut_tokens(row, wanted, got):
    """Whether a list of tokens is right up to a refusal, and then has ended at the place of the token that was asked for."""
    count = len(got) - 2
    place = got[count - 1].split('..')[1] if count > 0 else str(row[4])
    return count < len(wanted) - 1 and got == wanted[:count] + [MEMORY, 'at ' + place]


def is_split(row, wanted, got):
    """Whether pieces end with a refusal and the rest from the last end."""
    count = got.index(MEMORY)
    ends, text = (0,) + tuple(row[7]), row[3].encode()
    return got[:count] == wanted[:count] and got[count + 1:] == ['x' + text[ends[count]:].hex()]


def is_in_set(wanted, got, alone):
    """Whether the set's list is right but for members that are refused: one, where one request is refused."""
    if got[:1] != wanted[:1]:
        return got == [MEMORY]
    left = [item for item in got if item != MEMORY]
    if alone:
        at = got.index(MEMORY)
        return got.count(MEMORY) == 1 and left in (wanted, wanted[:at] + wanted[at + 1:])
    return left == [item for item in wanted if item in left]


def is_refused(row, wanted, got, alone):
    """Whether an answer is what the row may give where memory is refused."""
    if MEMORY not in got and KEPT not in got:
        return False
    if row[0] in ('split', 'splitn'):
        return is_split(row, wanted, got)
    if row[0] == 'in_set':
        return is_in_set(wanted, got, alone)
    if row[0] == 'tokens':
        return is_cut_tokens(row, wanted, got)
    if row[0] in ('matches', 'capture_matches', 'names'):
        return is_cut(wanted, got)
    return is_each(row, wanted, got, alone)


class Count:
    def __init__(self):
        self.runs = self.memory = self.right = self.third = 0
        self.most = {}

    def tell(self, of):
        print('%s: %d runs that met a refusal, %d answers of Memory, %d right ones, %d third answers' % (
            of, self.runs, self.memory, self.right, self.third), flush=True)

    def wrong(self, row, at, got):
        self.third += 1
        if self.third <= 40:
            print('THIRD', row[:6], 'request', at, 'answer', got, flush=True)


def asked_once(rows, library, at, rest):
    """What the rows answer with a request refused, and how many each made and had refused."""
    environment = {'LD_PRELOAD': library, 'REFUSE_AT': str(at)}
    if rest:
        environment['REFUSE_REST'] = '1'
    status, lines, told = asking.run([asking.line(*row[:6]) for row in rows], environment)
    counts = [tuple(map(int, line.split())) for line in told.split('\n')[:-1]]
    if status != 0 or len(lines) != len(rows) or len(counts) != len(rows):
        sys.exit('status %d, %d lines and %d counts of %d rows at request %d\n%s\n%s' % (
            status, len(lines), len(counts), len(rows), at, told[-300:], '\n'.join(lines)[-300:]))
    return zip(rows, lines, counts)


def try_calls(rows, library, rest, count):
    """Each row with its Nth request refused, for N from 1 on, as long as it meets a refusal."""
    at = 0
    while rows:
        at += 1
        met = []
        for row, line, (requests, refusals) in asked_once(rows, library, at, rest):
            wanted = row[6]
            first, again = asking.halves(line) or (None, None)
            if again != wanted or first is None:
                count.wrong(row, at, line)
            elif first == wanted:
                count.right += refusals > 0
            elif not (refusals > 0 and is_refused(row, wanted, first, not rest)):
                count.wrong(row, at, line)
            else:
                count.memory += 1
            if refusals > 0:
                count.runs += 1
                met.append(row)
            else:
                count.most[str(row[:6])] = requests
        rows = met


def try_without(rows, library, count):
    """The rows with every request refused: they make none."""
    for row, line, (requests, _) in asked_once(rows, library, 1, True):
        first, _ = asking.halves(line) or (None, None)
        if requests or first != row[6]:
            count.wrong(row, requests, line)
        else:
            count.right += 1


def try_fre(library, rest, count):
    """Each command of `fre` with its Nth request refused, for N from 1 on, as long as it meets a refusal."""
    for words, printed, status in table.FRE:
        at, met = 0, True
        while met:
            at += 1
            environment = dict(os.environ, LD_PRELOAD=library, REFUSE_ALL='1', REFUSE_AT=str(at))
            if rest:
                environment['REFUSE_REST'] = '1'
            done = subprocess.run([asking.FRE, *words], capture_output=True, env=environment, timeout=60)
            complaints = done.stderr.decode().split('\n')[:-1]
            out = done.stdout.decode(errors='replace')
            met = int(complaints[-1].split()[1]) > 0
            count.runs += met
            if (done.returncode, out, complaints[:-1]) == (status, printed, []):
                count.right += met
            elif met and done.returncode == 2 and complaints[:-1] == ['error: Memory'] and printed.startswith(out):
                count.memory += 1
            else:
                count.wrong(words, at, (done.returncode, out, complaints))


def all_calls(library, wrong_row):
    """The calls of the table; answers how many third answers there were."""
    rows, without = list(table.with_memory()), list(table.without_memory())
    print('%d rows of calls that take memory, %d of calls that take none' % (len(rows), len(without)), flush=True)
    if wrong_row:
        rows = [('find', '-', '(a)b', 'bab', 0, '', ['true', '0..1'])]
    third = 0
    for rest, name in MODES:
        count = Count()
        try_calls(rows, library, rest, count)
        count.tell('calls with %s refused' % name)
        third += count.third
    print('requests of a row: %d at most, %d in all' % (max(count.most.values()), sum(count.most.values())))
    count = Count()
    try_without(without, library, count)
    count.tell('calls that take no memory')
    return third + count.third


def all_commands(library):
    """The commands of `fre`; answers how many third answers there were."""
    print('%d commands of fre' % len(table.FRE), flush=True)
    third = 0
    for rest, name in MODES:
        count = Count()
        try_fre(library, rest, count)
        count.tell('fre with %s refused' % name)
        third += count.third
    return third


def main():
    words = argparse.ArgumentParser()
    words.add_argument('--only', choices=('calls', 'fre'))
    words.add_argument('--third', action='store_true')
    words = words.parse_args()
    third = 0
    with tempfile.TemporaryDirectory() as folder:
        library = os.path.join(folder, 'refuse.so')
        subprocess.run(['cc', '-shared', '-fPIC', '-O1', '-Wall', '-o', library, os.path.join(asking.HERE, 'refuse.c'), '-ldl'], check=True)
        if words.only != 'fre':
            third += all_calls(library, words.third)
        if words.only != 'calls':
            third += all_commands(library)
    print('%d third answers' % third)
    sys.exit(third > 0)


if __name__ == '__main__':
    main()

"""Patterns, templates and texts made of random bytes from a seed, asked of the program of crates/calls.

Checked of each case: every call ends, its answer is a right form or a named refusal and the same once more; spans lie in the text, on boundaries of
characters and in order; the groups' list has the matches of the list without groups; pieces and matches rejoin to the text, limited
pieces are the first ones and the rest; replacement by a plain text is what the pieces say; counts are within their bounds; a byte that a
pattern requires stands in each text with a match; tokens lie one after another, up to where their list has ended; an escaped text finds,
and expands to, itself.

    python3 tools/random_inputs.py [--seed N] [--cases M]
"""
import argparse
import collections
import random
import re
import sys

import asking

HOT = list('()[]{}|*+?\\^$.-&:<>=!,') + list('0123ab') + ['é', '\n', '(?', '(?:', '(?=', '(?!', '(?<=', '(?<!', '(?>', '(?i)', '(?<n>', r'\1', r'\2', r'\w',
       r'\d', r'\s', r'\b', r'\G', r'\K', r'\k<n>', '(?(1)', '[^', '&&', '--', '[:alpha:]',
       '*?', '+?', '++', '{1,2}', '{2}', r'\p{Greek}', r'\z', r'\Z', r'\x41', 'ab', 'a|b', '(a)',
       '(?x)']
ATOMS = ['a', 'b', 'a', 'b', '1', 'é', '.', r'\w', r'\d', r'\s', '[^a]', '[a-c&&[^b]]', r'\b', '^', '$', r'\1', r'\K', r'\G',
         'ab', r'\Z', '(a)', '(?i)', r'\p{Greek}']
OPENINGS = ['(', '(', '(?:', '(?i:', '(?s:', '(?=', '(?!', '(?<=', '(?<!', '(?>', '(?<n>', '(?(1)', '(?m:']
REPEATS = ['*', '+', '?', '*?', '+?', '??', '*+', '?+', '{1,2}', '{2}', '{0,3}?']
PLAIN = list('aabb12 \n,') + ['é', 'K', 'α', '\r\n']
MARKS = list('$\\{}<>g01') + ['$1', '${n}', '$n', r'\g<n>', r'\1', '$$', 'x', 'é', '${']
REFUSALS = re.compile('!(parsing error at position [0-9]+: [a-z A-Z,]+|error compiling regex: .*|error executing regex: [a-z ]+( [0-9]+)?)$', re.S)
SPAN = re.compile(r'([0-9]+)\.\.([0-9]+)$')


def soup(dice, words, most):
    """A text of some words and some bytes."""
    parts = []
    for _ in range(dice.randrange(most + 1)):
        if dice.random() < 0.06:
            parts.append(bytes(dice.randrange(256) for _ in range(dice.randrange(1, 4))))
        else:
            parts.append(dice.choice(words).encode())
    return b''.join(parts).decode(errors='ignore')


def grown(dice, depth):
    """A pattern that is mostly well formed."""
    if depth == 0 or dice.random() < 0.25:
        return dice.choice(ATOMS)
    kind = dice.random()
    if kind < 0.35:
        return grown(dice, depth - 1) + grown(dice, depth - 1)
    if kind < 0.5:
        return grown(dice, depth - 1) + '|' + grown(dice, depth - 1)
    if kind < 0.75:
        return dice.choice(OPENINGS) + grown(dice, depth - 1) + ')'
    return '(?:' + grown(dice, depth - 1) + ')' + dice.choice(REPEATS)


def pattern(dice):
    """A pattern: grown or a soup; some grown ones have a byte of theirs changed."""
    if dice.random() < 0.35:
        return soup(dice, HOT if dice.random() < 0.7 else HOT[:28] + PLAIN, dice.choice((3, 6, 10, 16)))
    text = grown(dice, dice.randrange(6))
    if dice.random() < 0.25:
        changed = bytearray(text.encode())
        changed[dice.randrange(len(changed))] = dice.randrange(256)
        return changed.decode(errors='ignore')
    return text


class Case:
    def __init__(self, dice):
        self.options = ''.join(letter for letter in 'imsxRUNOELS' if dice.random() < 0.08)
        self.options += dice.choice(['', '', '', '', 'a', 'b'])
        self.pattern = pattern(dice)
        self.text = soup(dice, PLAIN, dice.choice((2, 6, 12)))
        if self.options[-1:] in ('a', 'b'):
            self.text = self.text.encode().decode('ascii', errors='ignore')
        self.options = self.options or '-'
        self.bytes = self.text.encode()
        self.edges = [at for at in range(len(self.bytes) + 1) if at == len(self.bytes) or self.bytes[at] & 0xC0 != 0x80]
        self.start = dice.choice(self.edges)
        self.limit = dice.randrange(4)
        self.template = soup(dice, MARKS, 6)
        self.other = soup(dice, HOT, 4)
        self.spans = None
        self.pieces = None

    def lines(self):
        """The calls, with the numbers that they take."""
        def one(call, number=0, pattern=self.pattern, text=self.text):
            return call, asking.line(call, self.options, pattern, text, number, self.template)
        return [one('matches'), one('capture_matches'), one('find_from', self.start), one('captures', self.start), one('split'), one('splitn', self.limit),
                one('replace'), one('check'), one('bytes'), one('escape'), one('expand'), one('in_set', self.start, (self.pattern, self.other)),
                one('tokens', self.start, (self.pattern, self.other))]


class Fault(Exception):
    pass


def hold(fact, what):
    if not fact:
        raise Fault(what)


def span(case, item, least=0):
    """The ends of a match, which stands in the text on boundaries from `least` on; None for none."""
    if item == 'none':
        return None
    match = SPAN.match(item)
    hold(match, 'form of a span')
    start, end = int(match[1]), int(match[2])
    hold(least <= start <= end <= len(case.bytes), 'order of a span')
    hold(start in case.edges and end in case.edges, 'boundary')
    return start, end


def text_of(item):
    hold(re.match('x([0-9a-f][0-9a-f])*$', item), 'form of a text')
    return bytes.fromhex(item[1:])


def groups(case, item):
    return [span(case, group) for group in item.split(',')[:-1]]


def listed(case, items, groups_too):
    """The matches of a list, which stand in order, and whether a refusal ends it."""
    spans, last = [], 0
    for number, item in enumerate(items):
        if item.startswith('!'):
            hold(number + 1 == len(items), 'an item after a refusal')
            return spans, True
        here = groups(case, item)[0] if groups_too else span(case, item, last)
        hold(here is not None and here[0] >= last, 'order of matches')
        spans.append(here)
        last = here[1]
    hold(len(spans) <= len(case.bytes) + 1, 'number of matches')
    return spans, False


def check_one(case, call, items):
    """Checks the items of one call; `matches` comes first."""
    refused = any(item.startswith('!') for item in items)
    if call == 'matches':
        case.spans = listed(case, items, False)
    elif call == 'capture_matches':
        hold(listed(case, items, True) == case.spans, 'the two lists')
    elif call == 'find_from' and not refused:
        found = span(case, items[1], case.start)
        hold(items[1:4] == [items[1]] * 3 and items[0] == str(found is not None).lower(), 'the calls that find')
        hold(items[4] == 'within true', 'bounds')
    elif call == 'captures' and not refused:
        hold(len(items) == 3 and items[1] == items[2], 'the calls that capture')
        hold(span(case, items[0].split(',')[0]) == (case.spans[0] + [None])[0], 'the first of the list')
        for item in items:
            hold(item == 'none' or groups(case, item)[0] is not None, 'group 0')
    elif call in ('split', 'splitn'):
        check_pieces(case, call, items)
    elif call == 'replace' and not refused:
        check_replaced(case, [text_of(item) for item in items])
    elif call == 'check':
        hold(items == ['fits', 'fits'] or refused, 'form of a check')
    elif call == 'bytes' and not refused and case.spans[0]:
        required = items[1].split()[2:]
        hold(all(int(byte, 16) in case.bytes for byte in required), 'required bytes')
    elif call == 'expand' and not refused:
        texts = [text_of(item) for item in items]
        hold(texts[1:] == [b't' + texts[0]] * 4, 'the forms of expansion')
    elif call == 'in_set' and items and items[0].startswith('at '):
        check_set(case, items)
    elif call == 'tokens':
        check_tokens(case, items)


def check_pieces(case, call, items):
    spans, refused = case.spans
    cuts = [0] + [end for _, end in spans]
    wanted = [case.bytes[last:start] for last, (start, _) in zip(cuts, spans)] + [case.bytes[cuts[-1]:]]
    if call == 'split':
        got = [text_of(item) for item in items if not item.startswith('!')]
        hold(got == wanted and len(items) == len(wanted) + refused, 'pieces')
    elif not refused:
        got = [text_of(item) for item in items]
        if case.limit < len(wanted):
            wanted = wanted[:case.limit - 1] + [case.bytes[cuts[case.limit - 1]:]] if case.limit else []
        hold(got == wanted, 'limited pieces')


def check_replaced(case, texts):
    spans, refused = case.spans
    hold(not refused, 'a replacement where a search is refused')
    last, parts = 0, []
    for start, end in spans:
        parts += [case.bytes[last:start], case.template.encode()]
        last = end
    hold(texts[2] == b''.join(parts) + case.bytes[last:], 'a plain replacement')
    hold(case.limit > 0 or texts[0] == texts[3], 'a replacement of all')
    if not spans:
        hold(texts[0] == texts[1] == texts[3] == case.bytes, 'a replacement of nothing')


def check_set(case, items):
    place = int(items[0][3:])
    hold(case.start <= place <= len(case.bytes), 'place of a set')
    before = -1
    for item in items[1:]:
        if not item.startswith('!'):
            number, ends = item.split()
            hold(before < int(number) < 2, 'order of members')
            before = int(number)
            span(case, ends, place)


def check_tokens(case, items):
    """Tokens lie one after another, from the start to where the list has ended."""
    place = case.start
    for at, item in enumerate(items[:-1]):
        if item.startswith('!'):
            hold(at + 2 == len(items), 'a token after a refusal')
            hold('no token' not in item or item.endswith(' %d' % place), 'the place of a refusal')
            break
        number, ends = item.split()
        hold(number in ('0', '1') and span(case, ends, place)[0] == place, 'where a token starts')
        hold(span(case, ends)[1] > place, 'an empty token')
        place = span(case, ends)[1]
    else:
        hold(place == len(case.bytes), 'the end of tokens')
    hold(items[-1] == 'at %d' % place, 'where tokens have ended')


def check_line(case, call, line, count):
    """Checks a line, and answers its items."""
    if line.startswith('!'):
        hold(REFUSALS.match(line.rstrip('|')), 'form of a refusal')
        count['refused builds'] += 1
        return None
    if line == '' or '?cannot|' in line:
        count['not asked'] += 1
        return None
    both = asking.halves(line)
    hold(both and both[0] is not None, 'form of a line')
    hold(both[0] == both[1], 'the second answer')
    for item in both[0]:
        if item.startswith('!'):
            hold(REFUSALS.match(item), 'form of a refusal')
            count['refused calls'] += 1
    count['answers'] += 1
    check_one(case, call, both[0])
    return both[0]


def check_batch(cases, count):
    asked = [(case, call, line) for case in cases for call, line in case.lines()]
    status, lines, told = asking.run([line for _, _, line in asked])
    if status != 0 or len(lines) != len(asked):
        sys.exit('status %d, %d lines of %d: %r\n%s' % (status, len(lines), len(asked), asked[min(len(lines), len(asked) - 1)][2], told))
    again = []
    for (case, call, line), answer in zip(asked, lines):
        try:
            items = check_line(case, call, answer, count)
            if call == 'matches' and items is not None:
                count['lists with a match'] += bool(case.spans[0])
            if call == 'escape' and items:
                again += escaped(case, items)
        except Fault as fault:
            tell(count, fault, line, answer)
        if call == 'matches' and case.spans is None:
            case.spans = [], False
    check_again(again, count)


def escaped(case, items):
    pattern, template, _ = [text_of(item).decode() for item in items]
    return [(asking.line('find', '-', pattern, case.text), ['true', '0..%d' % len(case.bytes)]),
            (asking.line('write', '-', '', '', 0, template), [case.text]) if not set(case.text) & set('|<>\n\r') else
            (asking.line('replace', '-', '', '', 1, template), None)]


def check_again(again, count):
    """Escaped texts: as a pattern, and as a template."""
    _, lines, _ = asking.run([line for line, _ in again])
    for (line, wanted), answer in zip(again, lines):
        both = asking.halves(answer)
        if not both or wanted is not None and both != (wanted, wanted):
            tell(count, 'an escaped text', line, answer)
        count['escaped texts'] += 1


def tell(count, what, line, answer):
    count['faults'] += 1
    if count['faults'] <= 20:
        words = line.split(' ')
        print('FAULT', what, *words[:3], *map(repr, asking.texts(line)), 'answer', answer, flush=True)


def main():
    words = argparse.ArgumentParser()
    words.add_argument('--seed', type=int, default=1)
    words.add_argument('--cases', type=int, default=100000)
    words = words.parse_args()
    dice = random.Random(words.seed)
    count = collections.Counter(faults=0)
    done = 0
    while done < words.cases:
        size = min(2000, words.cases - done)
        check_batch([Case(dice) for _ in range(size)], count)
        done += size
    print('%d cases: %s' % (done, ', '.join('%s %d' % pair for pair in sorted(count.items()))))
    sys.exit(count['faults'] > 0)


if __name__ == '__main__':
    main()

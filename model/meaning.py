"""The meaning of patterns, as docs/DEFINITIONS.md has it: traces, searches, lists of matches, pieces, replacement, sets, tokens.

A state, and so an outcome, is a tuple (place, captures, kept start); captures is a
tuple of spans or None by group number. A trace is a generator of events: MARK,
RETURN, outcomes, and Drop(n), by which an atomic part gives up n open choices:
it tells how many branches are saved at one time.
"""
import sys
import threading
from dataclasses import dataclass, replace
from functools import lru_cache

import charset
import tree as T
import properties
from dialect import UNICODE, Options, parse, word_set

MARK, RETURN = 1, -1


class Drop:
    """n choices that were open are held no more."""
    __slots__ = ('n',)

    def __init__(self, n):
        self.n = n


class Limit(Exception):
    """BacktrackLimitExceeded or StackOverflow of one search."""

    def __init__(self, kind):
        super().__init__(kind)
        self.kind = kind


class Explosion(Exception):
    """The model itself gave up: too many events or too deep."""


def with_big_stack(function):
    """Run a function in a thread with a large stack; hand on its answer."""
    box = []

    def body():
        try:
            box.append((True, function()))
        except BaseException as e:          # handed on below
            box.append((False, e))
    sys.setrecursionlimit(60000)
    threading.stack_size(512 * 1024 * 1024)
    t = threading.Thread(target=body)
    t.start()
    t.join()
    ok, value = box[0]
    if not ok:
        raise value
    return value


# ------------------------------------------------------------------ inputs

@dataclass(frozen=True)
class Input:
    """What is searched. `hay` is bytes; `text` says that they are a text."""
    hay: bytes
    text: bool = True
    start: int = 0
    range: object = None
    anchored: bool = False
    start_text: bool = True
    end_text: bool = True
    continue_from_previous_match_end: bool = True

    @staticmethod
    def of(hay, **more):
        """An input over a str (text) or bytes."""
        if isinstance(hay, str):
            return Input(hay.encode(), True, **more)
        return Input(bytes(hay), False, **more)

    @property
    def limits(self):
        """Both ends of the range."""
        return self.range if self.range is not None else (0, len(self.hay))

    @property
    def effective_start(self):
        """Where the search starts."""
        return max(self.start, self.limits[0])

    def positions(self):
        """The positions that are tried, in order."""
        s, end = self.effective_start, self.limits[1]
        if s > end:
            return range(0)
        return range(s, s + 1) if self.anchored else range(s, end + 1)

    def is_char_boundary(self, i):
        """Whether no character is cut at i."""
        if i == 0 or i == len(self.hay):
            return True
        if i > len(self.hay):
            return not self.text
        return self.hay[i] & 0xC0 != 0x80

    def prev_codepoint_ix(self, i):
        """Where the character before i starts."""
        i -= 1
        while i > 0 and self.hay[i] & 0xC0 == 0x80:
            i -= 1
        return i

    def advance_position(self, i):
        """The next place after i, for a list of matches."""
        i += 1
        if self.text:
            while i < len(self.hay) and self.hay[i] & 0xC0 == 0x80:
                i += 1
        return i


@lru_cache(maxsize=64)
def decode_all(hay):
    """For each place the well-formed character that starts there: (number, length)."""
    out = []
    for i, b in enumerate(hay):
        n = 1 if b < 0x80 else 2 if 0xC2 <= b < 0xE0 else 3 if 0xE0 <= b < 0xF0 \
            else 4 if 0xF0 <= b < 0xF5 else 0
        try:
            out.append((ord(hay[i:i + n].decode()), n) if n and i + n <= len(hay) else None)
        except UnicodeDecodeError:
            out.append(None)
    return out


# ------------------------------------------------------------------ answers

@dataclass(frozen=True)
class Match:
    """An answer: the spans of all groups, group 0 kept start to end, and the position."""
    groups: tuple
    position: int

    @property
    def start(self):
        """The kept start."""
        return self.groups[0][0]

    @property
    def end(self):
        """The end."""
        return self.groups[0][1]

    @property
    def span(self):
        """Group 0."""
        return self.groups[0]


@dataclass
class Counts:
    """Marks and returns of a search, and the most branches that are saved at one time."""
    choices: int = 0
    returns: int = 0
    held: int = 0


# ------------------------------------------------------------------ traces

class Tracer:
    """trace(e, s, lim) over one input."""

    def __init__(self, regex, inp, g_at, budget):
        self.p, self.o, self.inp, self.hay = regex.pattern, regex.options, inp, inp.hay
        self.byte = self.o.meaning == 'byte'
        self.budget, self.turns = budget, 0
        self.chars = decode_all(self.hay)
        overrides = self.o.allow_input_assertion_overrides
        self.no_start = overrides and not inp.start_text
        self.no_end = overrides and not inp.end_text
        self.begin(g_at)
        self.word = word_set(self.o.meaning)
        self.how = {T.Seq: self.seq, T.Alt: self.alt, T.Repeat: self.repeat,
                    T.Group: self.group, T.Atomic: self.atomic, T.Look: self.look,
                    T.Cond: self.cond}

    def begin(self, g_at):
        """A search begins: `\\G` holds at g_at, or nowhere."""
        is_off = self.o.allow_input_assertion_overrides and not self.inp.continue_from_previous_match_end
        self.g_at = None if is_off else g_at

    def spend(self):
        """One unit of the model's own work, more within many turns of stars: each event goes through all of them."""
        self.budget -= 1 + self.turns // 64
        if self.budget < 0:
            raise Explosion

    # leaves ------------------------------------------------------------

    def leaf(self, e, s, lim):
        """The at most one outcome of a leaf, or None."""
        self.spend()
        place, caps, kept = s
        if isinstance(e, T.Item):
            if e.byte:
                if place < lim and charset.contains(e.chars, self.hay[place]):
                    return place + 1, caps, kept
                return None
            here = self.chars[place] if place < len(self.hay) else None
            if here and place + here[1] <= lim and charset.contains(e.chars, here[0]):
                return place + here[1], caps, kept
            return None
        if isinstance(e, T.Raw):
            if place < lim and self.hay[place] == e.byte:
                return place + 1, caps, kept
            return None
        if isinstance(e, T.BackRef):
            span = caps[e.group]
            end = self.backref(e, span, place) if span else None
            return (end, caps, kept) if end is not None and end <= lim else None
        if isinstance(e, T.Empty):
            return s
        if isinstance(e, T.Assertion):
            return s if self.holds(e.kind, place) else None
        if isinstance(e, T.SearchStart):
            return s if place == self.g_at else None
        if isinstance(e, T.GroupTest):
            return s if caps[e.group] else None
        if isinstance(e, T.KeepOut):
            return place, caps, place
        raise TypeError(e)

    def backref(self, e, span, place):
        """The end of the group's text read again at place, or None (DIALECT.md, References)."""
        text = self.hay[span[0]:span[1]]
        if e.fold != 'unicode':
            end = place + len(text)
            now = self.hay[place:end]
            if e.fold == 'ascii':                 # bytes.lower folds ASCII letters alone
                return end if now.lower() == text.lower() else None
            return end if now == text else None
        i = 0
        marks = decode_all(text)
        while i < len(text):
            if marks[i] is None:
                if not (place < len(self.hay) and self.hay[place] == text[i]):
                    return None
                i, place = i + 1, place + 1
                continue
            here = self.chars[place] if place < len(self.hay) else None
            if here is None or properties.fold(here[0]) != properties.fold(marks[i][0]):
                return None
            i, place = i + marks[i][1], place + here[1]
        return place

    def word_before(self, p):
        """Whether a word character ends at p."""
        if self.byte:
            return p > 0 and charset.contains(self.word, self.hay[p - 1])
        for k in (1, 2, 3, 4):
            if p - k >= 0 and self.chars[p - k] and self.chars[p - k][1] == k:
                return charset.contains(self.word, self.chars[p - k][0])
        return False

    def word_after(self, p):
        """Whether a word character begins at p."""
        if p >= len(self.hay):
            return False
        if self.byte:
            return charset.contains(self.word, self.hay[p])
        return bool(self.chars[p]) and charset.contains(self.word, self.chars[p][0])

    def holds(self, kind, p):
        """Whether the assertion holds at p (DIALECT.md, Assertions)."""
        h, n = self.hay, len(self.hay)
        if kind in ('^', 'A'):
            return p == 0 and not self.no_start
        if kind in ('$', 'z'):
            return p == n and not self.no_end
        if kind == '^m':
            return p == 0 or h[p - 1] == 10
        if kind == '$m':
            return p == n or h[p] == 10
        if kind == '^mR':
            return p == 0 or h[p - 1] == 10 or (
                h[p - 1] == 13 and not (p < n and h[p] == 10))
        if kind == '$mR':
            return p == n or h[p] == 13 or (
                h[p] == 10 and not (p > 0 and h[p - 1] == 13))
        if kind == 'Z':
            return h[p:].strip(b'\n') == b''
        if kind == 'ZR':
            return h[p:].replace(b'\r\n', b'').strip(b'\n') == b''
        before, after = self.word_before(p), self.word_after(p)
        return {'b': before != after, 'B': before == after,
                'start': not before and after, 'end': before and not after,
                'start-half': not before, 'end-half': not after}[kind]

    # inner nodes -------------------------------------------------------

    def trace(self, e, s, lim):
        """The trace of a part from a state."""
        how = self.how.get(e.__class__)
        if how is not None:
            return how(e, s, lim)
        out = self.leaf(e, s, lim)
        return iter(()) if out is None else iter((out,))

    def seq(self, e, s, lim, i=0):
        """Sequence: each outcome of the first part replaced by the rest's trace."""
        parts = e.parts
        while i < len(parts) and parts[i].__class__ not in self.how:
            s = self.leaf(parts[i], s, lim)
            if s is None:
                return
            i += 1
        if i == len(parts):
            yield s
            return
        for ev in self.trace(parts[i], s, lim):
            if ev.__class__ is tuple:
                yield from self.seq(e, ev, lim, i + 1)
            else:
                yield ev

    def alt(self, e, s, lim):
        """Alternative: mark, branch, return, the others; a last branch has neither."""
        for b in e.branches[:-1]:
            self.spend()
            yield MARK
            yield from self.trace(b, s, lim)
            yield RETURN
        yield from self.trace(e.branches[-1], s, lim)

    def repeat(self, e, s, lim):
        """`{lo,hi}` and `{lo,}`."""
        return self.copies(e, e.lo, s, lim)

    def copies(self, e, n, s, lim):
        """n copies in sequence, then the optionals or the star."""
        while n and e.body.__class__ not in self.how:
            s = self.leaf(e.body, s, lim)
            if s is None:
                return
            n -= 1
        if n == 0:
            if e.hi is None:
                yield from self.star(e, s, lim)
            else:
                yield from self.optionals(e, e.hi - e.lo, s, lim)
            return
        for ev in self.trace(e.body, s, lim):
            if ev.__class__ is tuple:
                yield from self.copies(e, n - 1, ev, lim)
            else:
                yield ev

    def optionals(self, e, n, s, lim):
        """n optionals, each inside the one before."""
        self.spend()
        if n == 0:
            yield s
            return
        yield from self.turn(e, s, lim, lambda ev: self.optionals(e, n - 1, ev, lim))

    def star(self, e, s, lim):
        """The star; a turn that ends at its own start is dropped."""
        self.spend()
        self.turns += 1
        try:
            yield from self.turn(e, s, lim, lambda ev: () if ev[0] == s[0] else self.star(e, ev, lim))
        finally:
            self.turns -= 1

    def turn(self, e, s, lim, more):
        """One more turn, or none: a lazy repeat prefers none. `more` goes on from an end of the body."""
        yield MARK
        if e.lazy:
            yield s
            yield RETURN
        for ev in self.trace(e.body, s, lim):
            if ev.__class__ is tuple:
                yield from more(ev)
            else:
                yield ev
        if not e.lazy:
            yield RETURN
            yield s

    def group(self, e, s, lim):
        """Group: the span written as a whole when it closes."""
        k = e.index
        for ev in self.trace(e.body, s, lim):
            if ev.__class__ is tuple:
                place, caps, kept = ev
                yield place, caps[:k] + ((s[0], place),) + caps[k + 1:], kept
            else:
                yield ev

    def until_first(self, events, extra=0):
        """The events up to the first outcome; the choices then open are dropped
        (`extra` more of them belong to the caller)."""
        held = extra
        for ev in events:
            if ev.__class__ is tuple:
                if held:
                    yield Drop(held)
                yield ev
                return
            held += -ev.n if ev.__class__ is Drop else ev
            yield ev

    def atomic(self, e, s, lim):
        """Atomic: the body's trace up to its first outcome."""
        return self.until_first(self.trace(e.body, s, lim))

    def look_events(self, e, s):
        """The body of look-around, not yet cut at its first outcome."""
        end = len(self.hay)
        if not e.behind:
            yield from self.trace(e.body, s, end)
            return
        branches = e.body.branches if isinstance(e.body, T.Alt) else (e.body,)
        for i, b in enumerate(branches):
            last = i == len(branches) - 1
            if not last:
                yield MARK
            place = self.step_back(s[0], T.size(b, self.byte))
            if place is not None:
                for ev in self.trace(b, (place, s[1], s[2]), end):
                    if ev.__class__ is not tuple or ev[0] == s[0]:
                        yield ev
            if not last:
                yield RETURN

    def step_back(self, p, units):
        """`units` units before p, or None where the text's start is passed."""
        for _ in range(units):
            if p == 0:
                return None
            p = p - 1 if self.byte else self.inp.prev_codepoint_ix(p)
        return p

    def look(self, e, s, lim):
        """Look-ahead, look-behind and their negations."""
        if not e.negative:
            for ev in self.until_first(self.look_events(e, s)):
                yield (s[0], ev[1], ev[2]) if ev.__class__ is tuple else ev
            return
        self.spend()
        yield MARK
        for ev in self.until_first(self.look_events(e, s), 1):
            if ev.__class__ is tuple:
                return
            yield ev
        yield RETURN
        yield s

    def cond(self, e, s, lim):
        """Conditional."""
        if e.bare:
            yield from self.until_first(self.trace(e.test, s, lim))
            return
        self.spend()
        yield MARK
        for ev in self.until_first(self.trace(e.test, s, lim), 1):
            if ev.__class__ is tuple:
                yield from self.trace(e.yes, ev, lim)
                return
            yield ev
        yield RETURN
        yield from self.trace(e.no, s, lim)

    # reachable ends of easy patterns ------------------------------------

    def ends(self, e, places, lim):
        """The ends of `outs` from a set of places, for easy trees alone: a sum over
        sets, so that searches that find nothing stay cheap."""
        if isinstance(e, T.Seq):
            for p in e.parts:
                places = self.ends(p, places, lim)
            return places
        if isinstance(e, T.Alt):
            return set().union(*(self.ends(b, places, lim) for b in e.branches))
        if isinstance(e, T.Group):
            return self.ends(e.body, places, lim)
        if isinstance(e, T.Repeat):
            for _ in range(e.lo):
                now = self.ends(e.body, places, lim)
                if now == places or not now:
                    places = now
                    break
                places = now
            todo, seen = places, set(places)
            for _ in range(e.hi - e.lo if e.hi is not None else sys.maxsize):
                todo = self.ends(e.body, todo, lim) - seen
                if not todo:
                    break
                seen |= todo
            return seen
        out = set()
        for p in places:
            now = self.leaf(e, (p, (), p), lim)
            if now is not None:
                out.add(now[0])
        return out


# ------------------------------------------------------------------ searches and lists

class Regex:
    """An accepted pattern with its searches. Raises dialect.Refused."""

    # What the model spends on a search, and for each byte more; and how often that on a list.
    BUDGET, BUDGET_OF_BYTE, OF_LIST = 2_000_000, 40, 5

    def __init__(self, text, options=None, **switches):
        self.options = options if options is not None else Options(**switches)
        self.pattern = parse(text, self.options)
        self.tree = self.pattern.tree
        self.hard = self.pattern.hard
        self.start_bytes = T.start_bytes(self.tree)
        self.required = T.required(self.tree)

    def tracer(self, inp, g_at):
        """A tracer; `\\G` holds at g_at."""
        return Tracer(self, inp, g_at, self.BUDGET + self.BUDGET_OF_BYTE * len(inp.hay))

    def stands(self, inp, i):
        """Whether a match may start or end at the place."""
        return self.options.bytes_mode != UNICODE or inp.is_char_boundary(i)

    def accepted(self, inp, out):
        """Whether the outcome is taken."""
        if self.options.find_not_empty and out[2] == out[0]:
            return False
        return self.stands(inp, out[2]) and self.stands(inp, out[0])

    def ruled_out(self, inp, p):
        """Whether the bytes that a match begins with say that none starts at p."""
        return self.start_bytes is not None and not (
            p < inp.limits[1] and inp.hay[p] in self.start_bytes)

    def skipped(self, inp, p):
        """Whether the option `seek` passes over the position."""
        return self.options.seek and (not self.required <= set(inp.hay) or self.ruled_out(inp, p))

    def attempt(self, inp, p, t, counts):
        """The answer at one position; marks and returns are added to the counts."""
        if not self.stands(inp, p) or self.skipped(inp, p):
            return None
        lim = inp.limits[1]
        if not self.hard and not any(self.stands(inp, e)
                                     for e in t.ends(self.tree, {p}, lim)):
            return None
        best, held = None, 0
        try:
            for ev in t.trace(self.tree, (p, (None,) * self.pattern.groups, p), lim):
                if ev.__class__ is tuple:
                    if self.accepted(inp, ev):
                        if not self.options.leftmost_longest:
                            best = ev
                            break
                        if best is None or ev[0] > best[0]:
                            best = ev
                elif ev is MARK:
                    counts.choices += 1
                    held += 1
                    counts.held = max(counts.held, held)
                    if self.hard and held > self.options.stack_limit:
                        raise Limit('StackOverflow')
                elif ev is RETURN:
                    held -= 1
                    if self.hard and counts.returns >= self.options.backtrack_limit:
                        raise Limit('BacktrackLimitExceeded')
                    counts.returns += 1
                else:
                    held -= ev.n
        except RecursionError:
            raise Explosion from None
        if best is None:
            return None
        return Match(((best[2], best[0]),) + best[1][1:], p)

    def list_tracer(self, inp):
        """A tracer for all searches of a list."""
        t = self.tracer(inp, None)
        t.budget *= self.OF_LIST
        return t

    def search(self, inp, g_off=False, counts=None, tracer=None):
        """The answer of a search, or None; raises Limit."""
        counts = counts if counts is not None else Counts()
        t = tracer or self.tracer(inp, None)
        t.begin(None if g_off else inp.effective_start)
        for p in inp.positions():
            m = self.attempt(inp, p, t, counts)
            if m is not None:
                return m
        return None

    def matches(self, inp):
        """All matches in order, or those before a Limit, which is the last item."""
        tracer = self.list_tracer(inp)
        item, err = self._try(inp, False, tracer)
        s = inp.effective_start
        while item is not None:
            yield item
            e = item.end
            if item.start != item.end:
                s = max(e, inp.limits[0])
                item, err = self._try(replace(inp, start=e), False, tracer)
                if item is not None and item.span == (e, e):
                    a = inp.advance_position(e)
                    s = max(a, inp.limits[0])
                    item, err = self._try(replace(inp, start=a), True, tracer)
            else:
                a = inp.advance_position(e)
                off = s == e
                s = max(a, inp.limits[0])
                item, err = self._try(replace(inp, start=a), off, tracer)
        if err is not None:
            yield err

    def _try(self, inp, g_off, tracer):
        try:
            return self.search(inp, g_off, tracer=tracer), None
        except Limit as e:
            return None, e

    def split(self, hay):
        """The pieces of a str: texts, with a limit as an item before the rest."""
        data, last, out = hay.encode(), 0, []
        for m in self.matches(Input.of(hay)):
            if isinstance(m, Limit):
                out.append(m)
            else:
                out.append(data[last:m.start].decode())
                last = m.end
        return out + [data[last:].decode()]

    def splitn(self, hay, n):
        """At most n pieces. The last needs no search."""
        data, last, out = hay.encode(), 0, []
        items = self.matches(Input.of(hay))
        while len(out) < n:
            m = next(items, None) if len(out) < n - 1 else None
            if m is None:
                return out + [data[last:].decode()]
            if isinstance(m, Limit):
                out.append(m)
            else:
                out.append(data[last:m.start].decode())
                last = m.end
        return out

    def replacen(self, hay, limit, replacer):
        """The text with matches replaced, or None where nothing matched. Raises Limit."""
        data, last, out, done = hay.encode(), 0, [], 0
        for m in self.matches(Input.of(hay)):
            if isinstance(m, Limit):
                raise m
            out.append(data[last:m.start].decode())
            out.append(replacer(m))
            last, done = m.end, done + 1
            if done == limit:
                break
        if not done:
            return None
        return ''.join(out) + data[last:].decode()


# ------------------------------------------------------------------ sets and tokens

class RegexSet:
    """A pattern set. Its members are asked at each position in index order. One that
    cannot begin with the byte there is passed over, so no limit of it is met."""

    def __init__(self, members):
        self.members = list(members)

    def find(self, inp, g_at=None):
        """(position, items) or None; items are (index, Match or Limit), lazily.
        Raises the Limit of a member before the first match."""
        g_at = inp.effective_start if g_at is None else g_at
        tracers = [m.tracer(inp, g_at) for m in self.members]
        for p in inp.positions():
            for k, member in enumerate(self.members):
                if self.asked(member, inp, p, tracers[k]) is not None:
                    return p, self.items(inp, p, tracers)
        return None

    @staticmethod
    def asked(member, inp, p, tracer):
        """The answer of a member at a position."""
        return None if member.ruled_out(inp, p) else member.attempt(inp, p, tracer, Counts())

    def items(self, inp, p, tracers):
        """The members at position p, in index order."""
        for k, member in enumerate(self.members):
            try:
                m = self.asked(member, inp, p, tracers[k])
            except Limit as e:
                yield k, e
                continue
            if m is not None:
                yield k, m

    def tokens(self, inp):
        """Items (index, Match), then perhaps a Limit or ('Unmatched', place)."""
        p, end = inp.effective_start, inp.limits[1]
        tracers = [it.list_tracer(inp) for it in self.members]
        while p < end:
            here = replace(inp, start=p, anchored=True)
            best = None
            for k, member in enumerate(self.members):
                tracers[k].begin(p)
                try:
                    m = self.asked(member, here, p, tracers[k])
                except Limit as e:
                    yield e
                    return
                if m is not None and m.start == p and m.end > p and (
                        best is None or m.end > best[1].end):
                    best = (k, m)
            if best is None:
                yield 'Unmatched', p
                return
            yield best
            p = best[1].end

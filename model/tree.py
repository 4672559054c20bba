"""The tree of a pattern, its size, its nodes, and the bytes that a match begins with and needs."""
from dataclasses import dataclass

import charset


class Node:
    """A tree. Leaves have no parts."""
    __slots__ = ()


@dataclass(frozen=True)
class Item(Node):
    """Consumes one unit whose number is in `chars`. `byte`: the unit is a byte
    (byte meaning), else one well-formed UTF-8 sequence. `literal` matters to
    `required` alone."""
    chars: tuple
    byte: bool
    literal: bool


@dataclass(frozen=True)
class Raw(Node):
    """The single byte of `\\xHH` above 7F outside a class, in a byte mode."""
    byte: int


@dataclass(frozen=True)
class BackRef(Node):
    """Backreference; fold is '' (exact), 'unicode' or 'ascii'."""
    group: int
    fold: str


@dataclass(frozen=True)
class Empty(Node):
    """The sequence without parts."""


@dataclass(frozen=True)
class Assertion(Node):
    """One of `^ $ ^m $m ^mR $mR A z Z ZR b B start end start-half end-half`."""
    kind: str


@dataclass(frozen=True)
class SearchStart(Node):
    """`\\G`."""


@dataclass(frozen=True)
class KeepOut(Node):
    """`\\K`."""


@dataclass(frozen=True)
class GroupTest(Node):
    """The condition that a group has taken part."""
    group: int


@dataclass(frozen=True)
class Seq(Node):
    """Sequence of two parts or more."""
    parts: tuple


@dataclass(frozen=True)
class Alt(Node):
    """Alternative of two branches or more."""
    branches: tuple


@dataclass(frozen=True)
class Repeat(Node):
    """`{lo,hi}`; hi None is `{lo,}`."""
    body: Node
    lo: int
    hi: object
    lazy: bool


@dataclass(frozen=True)
class Group(Node):
    """Capturing group."""
    index: int
    body: Node


@dataclass(frozen=True)
class Atomic(Node):
    """Atomic group; a possessive repeat is one round the greedy repeat."""
    body: Node


@dataclass(frozen=True)
class Look(Node):
    """Look-around."""
    body: Node
    behind: bool
    negative: bool


@dataclass(frozen=True)
class Cond(Node):
    """Conditional."""
    test: Node
    yes: Node
    no: Node

    @property
    def bare(self):
        """Both branches empty."""
        return isinstance(self.yes, Empty) and isinstance(self.no, Empty)


def children(e):
    """The direct parts of a tree."""
    if isinstance(e, Seq):
        return e.parts
    if isinstance(e, Alt):
        return e.branches
    if isinstance(e, (Repeat, Group, Atomic, Look)):
        return (e.body,)
    if isinstance(e, Cond):
        return (e.test, e.yes, e.no)
    return ()


def walk(e):
    """All nodes of a tree."""
    yield e
    for c in children(e):
        yield from walk(c)


def size(e, byte_meaning):
    """How many units the tree always consumes, where that is one number, else None."""
    if isinstance(e, Item):
        return 1
    if isinstance(e, Raw):
        return 1 if byte_meaning else None
    if isinstance(e, BackRef):
        return None
    if isinstance(e, (Empty, Assertion, SearchStart, KeepOut, GroupTest, Look)):
        return 0
    if isinstance(e, Seq):
        total = 0
        for p in e.parts:
            n = size(p, byte_meaning)
            if n is None:
                return None
            total += n
        return total
    if isinstance(e, Alt):
        sizes = {size(b, byte_meaning) for b in e.branches}
        return sizes.pop() if len(sizes) == 1 else None
    if isinstance(e, (Group, Atomic)):
        return size(e.body, byte_meaning)
    if isinstance(e, Repeat):
        if e.hi == 0:
            return 0
        n = size(e.body, byte_meaning)
        if e.lo == e.hi:
            return None if n is None else e.lo * n
        return 0 if n == 0 else None
    if isinstance(e, Cond):
        t = size(e.test, byte_meaning)
        if e.bare:
            return t
        y, n = size(e.yes, byte_meaning), size(e.no, byte_meaning)
        return t + y if None not in (t, y, n) and t + y == n else None
    raise TypeError(e)


def nodes(e):
    """Nodes, with counted repeats written out (DIALECT.md, Nodes)."""
    if isinstance(e, Seq):
        return sum(nodes(p) for p in e.parts)
    if isinstance(e, Alt):
        return sum(nodes(b) for b in e.branches) + len(e.branches)
    if isinstance(e, (Group, Atomic, Look)):
        return nodes(e.body) + 1
    if isinstance(e, Cond):
        return nodes(e.test) + nodes(e.yes) + nodes(e.no) + 1
    if isinstance(e, Repeat):
        b = nodes(e.body)
        if e.hi is None:
            return 1 + e.lo * b + b + 1
        return 1 + e.lo * b + (e.hi - e.lo) * (b + 1)
    return 1


def is_hard_tree(e):
    """Whether it has a backreference, look-around, atomic or possessive part,
    `\\K`, `\\G` or a conditional."""
    return any(isinstance(n, (BackRef, Look, Atomic, KeepOut, SearchStart, Cond))
               for n in walk(e))


# ---------------------------------------------------------------- byte sets

ALL_BYTES = frozenset(range(256))
_NONE = frozenset()


def _encodings(item):
    """Encodings of the members of an item (small sets alone)."""
    for c in charset.members(item.chars):
        yield bytes([c]) if item.byte else chr(c).encode()


def _first_bytes(item):
    """First bytes of the encodings of an item's members."""
    out = set()
    for lo, hi in item.chars:
        if item.byte:
            out.update(range(lo, hi + 1))
            continue
        for a, b in ((0, 0x7F), (0x80, 0x7FF), (0x800, 0xFFFF), (0x10000, 0x10FFFF)):
            a, b = max(a, lo), min(b, hi)
            if a <= b:
                # first bytes grow with the number within one length
                out.update(range(_lead(a), _lead(b) + 1))
    return frozenset(out)


def _lead(c):
    """First byte of the encoding of a scalar value."""
    if c < 0x80:
        return c
    if c < 0x800:
        return 0xC0 | c >> 6
    if c < 0x10000:
        return 0xE0 | c >> 12
    return 0xF0 | c >> 18


def nullable(e):
    """Whether it may match the empty text (DIALECT.md, Byte sets)."""
    if isinstance(e, (Item, Raw)):
        return False
    if isinstance(e, (Empty, Assertion, KeepOut, SearchStart, GroupTest, Look, BackRef)):
        return True
    if isinstance(e, Seq):
        return all(nullable(p) for p in e.parts)
    if isinstance(e, Alt):
        return any(nullable(b) for b in e.branches)
    if isinstance(e, (Group, Atomic)):
        return nullable(e.body)
    if isinstance(e, Repeat):
        return e.lo == 0 or nullable(e.body)
    if isinstance(e, Cond):
        if e.bare:
            return nullable(e.test)
        return nullable(e.test) and nullable(e.yes) or nullable(e.no)
    raise TypeError(e)


def first(e):
    """The bytes that a match which is not empty may begin with."""
    if isinstance(e, Item):
        return _first_bytes(e)
    if isinstance(e, Raw):
        return frozenset([e.byte])
    if isinstance(e, (Empty, Assertion, KeepOut, SearchStart, GroupTest, Look)):
        return _NONE
    if isinstance(e, BackRef):
        return ALL_BYTES
    if isinstance(e, Seq):
        return _first_seq(e.parts)
    if isinstance(e, Alt):
        return frozenset().union(*(first(b) for b in e.branches))
    if isinstance(e, (Group, Atomic)):
        return first(e.body)
    if isinstance(e, Repeat):
        return _NONE if e.hi == 0 else first(e.body)
    if isinstance(e, Cond):
        if e.bare:
            return first(e.test)
        return _first_seq((e.test, e.yes)) | first(e.no)
    raise TypeError(e)


def _first_seq(parts):
    out = frozenset()
    for p in parts:
        out |= first(p)
        if not nullable(p):
            break
    return out


def required(e):
    """The bytes that each match needs."""
    if isinstance(e, Item):
        if not e.literal and charset.count(e.chars) != 1:
            return _NONE
        common = None
        for enc in _encodings(e):
            common = set(enc) if common is None else common & set(enc)
        return frozenset(common or ())
    if isinstance(e, Raw):
        return frozenset([e.byte])
    if isinstance(e, Look):
        return _NONE if e.negative else required(e.body)
    if isinstance(e, Seq):
        return frozenset().union(*(required(p) for p in e.parts))
    if isinstance(e, Alt):
        out = required(e.branches[0])
        for b in e.branches[1:]:
            out &= required(b)
        return out
    if isinstance(e, (Group, Atomic)):
        return required(e.body)
    if isinstance(e, Repeat):
        return required(e.body) if e.lo >= 1 else _NONE
    if isinstance(e, Cond):
        if e.bare:
            return required(e.test)
        return (required(e.test) | required(e.yes)) & required(e.no)
    return _NONE


def start_bytes(e):
    """None where the pattern is nullable or holds `\\K`, else the first bytes."""
    if nullable(e) or any(isinstance(n, KeepOut) for n in walk(e)):
        return None
    return first(e)

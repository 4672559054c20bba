"""Reads a pattern of the dialect (docs/DIALECT.md) into its tree, or says why it is refused.

`parse(pattern, options)` answers a `Pattern`, or raises `Refused` with the names
of the first fault: reading ends there.
"""
import re
import sys
from dataclasses import dataclass, field, replace

import charset
import properties
from tree import (Alt, Assertion, Atomic, BackRef, Cond, Empty, Group, GroupTest, Item,
                  KeepOut, Look, Raw, Repeat, SearchStart, Seq, children, is_hard_tree,
                  nodes, size)

sys.setrecursionlimit(max(sys.getrecursionlimit(), 20000))

MAX_COUNT = 4294967295
UNICODE, ASCII_MODE, UNICODE_BYTES = 'unicode', 'ascii', 'unicode_bytes'


@dataclass(frozen=True)
class Options:
    """The options of a regex (DIALECT.md, Flags and options), and the limits."""
    case_insensitive: bool = False
    multi_line: bool = False
    ignore_whitespace: bool = False
    dot_matches_new_line: bool = False
    crlf: bool = False
    unicode_mode: bool = True
    bytes_mode: str = UNICODE
    find_not_empty: bool = False
    leftmost_longest: bool = False
    ignore_numbered_groups_when_named_groups_exist: bool = False
    allow_input_assertion_overrides: bool = False
    seek: bool = False
    backtrack_limit: int = 1_000_000
    stack_limit: int = 1_000_000
    max_prog_size: object = None
    depth_limit: int = 128
    node_limit: int = 4_000_000

    @property
    def meaning(self):
        """'unicode', 'byte' or 'ascii' (DIALECT.md, Three meanings)."""
        if self.bytes_mode == ASCII_MODE or (
                not self.unicode_mode and self.bytes_mode == UNICODE_BYTES):
            return 'byte'
        return 'unicode' if self.unicode_mode else 'ascii'


class Refused(Exception):
    """A refused pattern, with the names of its first fault: mostly one."""

    def __init__(self, *names):
        super().__init__(','.join(names))
        self.names = names


class Unknown(Exception):
    """The model does not know what the pattern means, as where it names a script."""


@dataclass
class Pattern:
    """An accepted pattern."""
    text: str
    tree: object
    options: Options
    names: list = field(default_factory=list)   # names[k] of group k, or None; names[0] None

    @property
    def groups(self):
        """How many groups there are, with group 0."""
        return len(self.names)

    @property
    def hard(self):
        """Whether the pattern is hard (DEFINITIONS.md, Regexes)."""
        o = self.options
        return is_hard_tree(self.tree) or o.find_not_empty or o.leftmost_longest

    def named(self, name):
        """The number of the last group of that name, or None."""
        for k in range(len(self.names) - 1, 0, -1):
            if self.names[k] == name:
                return k
        return None

    @property
    def has_names(self):
        """Does a named group exist?"""
        return any(n is not None for n in self.names)


@dataclass(frozen=True)
class _Flags:
    i: bool = False
    m: bool = False
    s: bool = False
    x: bool = False
    R: bool = False


# What stands before a quantifier.
_NOTHING, _ATOM, _QUANTIFIED, _SETTING, _EMPTY_GROUP = range(5)

_COUNT = re.compile(r'\{(?:([0-9]+)(?:(,)([0-9]*))?|,([0-9]+))\}')
_POSIX = re.compile(r'\[:(\^?)([A-Za-z]+):\]')
_DIGITS = re.compile(r'[0-9]+')
_HEX = '0123456789abcdefABCDEF'
_CONTROL = {'e': 0x1B, 'n': 0x0A, 't': 0x09, 'r': 0x0D, 'f': 0x0C, 'v': 0x0B, 'a': 0x07}
_PUNCT_OR_SPACE = set('!"#$%&\'()*+,-./:;<=>?@[\\]^_`{|}~ ')
_W_ASCII = charset.make([(0x30, 0x39), (0x41, 0x5A), (0x5F, 0x5F), (0x61, 0x7A)])
_S_ASCII = charset.make([(9, 13), (0x20, 0x20)])
_D_ASCII = charset.make([(0x30, 0x39)])
_HEX_SET = charset.make([(0x30, 0x39), (0x41, 0x46), (0x61, 0x66)])
_POSIX_SETS = {
    'alnum': [(0x30, 0x39), (0x41, 0x5A), (0x61, 0x7A)],
    'alpha': [(0x41, 0x5A), (0x61, 0x7A)],
    'ascii': [(0, 0x7F)], 'blank': [(9, 9), (0x20, 0x20)],
    'cntrl': [(0, 0x1F), (0x7F, 0x7F)], 'digit': [(0x30, 0x39)],
    'graph': [(0x21, 0x7E)], 'lower': [(0x61, 0x7A)], 'print': [(0x20, 0x7E)],
    'punct': [(0x21, 0x2F), (0x3A, 0x40), (0x5B, 0x60), (0x7B, 0x7E)],
    'space': [(9, 13), (0x20, 0x20)], 'upper': [(0x41, 0x5A)],
    'word': [(0x30, 0x39), (0x41, 0x5A), (0x5F, 0x5F), (0x61, 0x7A)],
    'xdigit': [(0x30, 0x39), (0x41, 0x46), (0x61, 0x66)],
}


def parse(text, options=Options()):
    """The pattern, read; raises Refused."""
    ignore_unnamed = False
    if options.ignore_numbered_groups_when_named_groups_exist:
        scout = _Parser(text, options, False)
        scout.run()
        ignore_unnamed = any(n is not None for n in scout.names)
    p = _Parser(text, options, ignore_unnamed)
    tree = p.resolve(p.run())
    p.check_tree(tree)
    return Pattern(text, tree, options, p.names)


def word_set(meaning):
    """`\\w` in a meaning."""
    return properties.word() if meaning == 'unicode' else _W_ASCII


class _Parser:
    """One reading, left to right."""

    def __init__(self, text, options, ignore_unnamed):
        self.t, self.pos, self.o = text, 0, options
        self.ignore_unnamed = ignore_unnamed
        self.meaning = options.meaning
        self.universe = {'unicode': charset.SCALARS, 'byte': charset.BYTES,
                         'ascii': charset.ASCII}[self.meaning]
        self.flags = _Flags(options.case_insensitive, options.multi_line,
                            options.dot_matches_new_line, options.ignore_whitespace,
                            options.crlf)
        self.depth, self.looks = 0, 0       # how many parentheses are open here, and how many of them are look-around
        self.names = [None]

    # ------------------------------------------------------------ reading

    def peek(self, k=0):
        """The character k places on, or None."""
        i = self.pos + k
        return self.t[i] if i < len(self.t) else None

    def at(self, s):
        """Does s stand here?"""
        return self.t.startswith(s, self.pos)

    def run(self):
        """pattern = alt."""
        tree = self.alt()
        if self.pos < len(self.t):
            raise Refused('GeneralParseError')      # an unmatched `)`
        return tree

    def skip(self):
        """What is skipped before atoms, quantifiers and ends (DIALECT.md, What is skipped)."""
        while True:
            if self.at('(?#'):
                end = self.t.find(')', self.pos + 3)
                if end < 0:
                    raise Refused('UnclosedOpenParen')
                self.pos = end + 1
            elif self.flags.x and self.peek() is not None and self.peek() in ' \t\n\r':
                self.pos += 1
            elif self.flags.x and self.peek() == '#':
                end = self.t.find('\n', self.pos)
                end = len(self.t) if end < 0 else end
                self.pos = end
            else:
                return

    def alt(self):
        """alt = seq { "|" seq }"""
        branches = [self.seq()]
        while self.peek() == '|':
            self.pos += 1
            branches.append(self.seq())
        return branches[0] if len(branches) == 1 else Alt(tuple(branches))

    def seq(self):
        """seq = { atom [ quant ] }"""
        parts, before = [], _NOTHING
        while True:
            self.skip()
            c = self.peek()
            if c is None or c in '|)':
                break
            quant = self.quant()
            if quant is not None:
                if before != _ATOM:
                    raise Refused('TargetNotRepeatable')
                lo, hi, suffix = quant
                body = Repeat(parts[-1], lo, hi, suffix == '?')
                parts[-1] = Atomic(body) if suffix == '+' else body
                before = _QUANTIFIED
                continue
            begin = self.t[self.pos:self.pos + 2]
            atom = self.atom()
            if atom is None:
                before = _SETTING
                continue
            parts.append(atom)
            before = _ATOM
            if begin[0] == '(' and isinstance(atom, Empty):
                before = _EMPTY_GROUP
        if not parts:
            return Empty()
        return parts[0] if len(parts) == 1 else Seq(tuple(parts))

    def quant(self):
        """A quantifier here: (lo, hi, suffix), or None."""
        c = self.peek()
        bounds = {'*': (0, None), '+': (1, None), '?': (0, 1)}.get(c)
        if bounds is not None:
            self.pos += 1
        elif c == '{':
            m = _COUNT.match(self.t, self.pos)
            if not m:
                return None
            self.pos = m.end()
            if m.group(4) is not None:
                bounds = (0, int(m.group(4)))
            elif m.group(2) is None:
                bounds = (int(m.group(1)),) * 2
            else:
                bounds = (int(m.group(1)), int(m.group(3)) if m.group(3) else None)
        else:
            return None
        suffix = self.peek()
        if suffix is not None and suffix in '?+':
            self.pos += 1
        else:
            suffix = ''
        lo, hi = bounds
        if lo > MAX_COUNT or (hi is not None and (hi > MAX_COUNT or lo > hi)):
            raise Refused('InvalidRepeat')
        return lo, hi, suffix

    def atom(self):
        """One atom; None for a flag setting."""
        c = self.peek()
        if c == '(':
            return self.group()
        if c == '[':
            return Item(self.klass(), self.meaning == 'byte', False)
        if c == '\\':
            return self.escape()
        self.pos += 1
        if c == '.':
            return self.dot(self.flags.s)
        if c in '^$':
            kind = c
            if self.flags.m:
                kind += 'mR' if self.flags.R else 'm'
            return Assertion(kind)
        return self.literal(ord(c))

    # ------------------------------------------------------------ items

    def widen(self, s):
        """The set with all that folds to a member, under the flag `i` (DIALECT.md, Case)."""
        if not self.flags.i:
            return s
        return properties.widen_unicode(s) if self.meaning == 'unicode' else properties.widen_ascii(s)

    def literal(self, c):
        """A literal character outside a class."""
        if self.meaning == 'byte' and c > 0x7F:
            return Seq(tuple(Item(charset.of(b), True, True) for b in chr(c).encode()))
        return Item(self.widen(charset.of(c)), self.meaning == 'byte', True)

    def any_item(self, without):
        """Any unit but those of `without`."""
        if self.meaning == 'ascii':
            raise Refused('InvalidClass')
        return Item(charset.subtract(self.universe, without), self.meaning == 'byte', False)

    def dot(self, everything):
        """`.`, `\\O`, `\\N`."""
        without = () if everything else charset.of(10, 13) if self.flags.R else charset.of(10)
        return self.any_item(without)

    def letter_set(self, c):
        """The set of `\\d \\D \\s \\S \\w \\W \\h \\H`, widened, then complemented."""
        uni = self.meaning == 'unicode'
        s = {'d': properties.digit() if uni else _D_ASCII,
             's': properties.WHITE_SPACE if uni else _S_ASCII,
             'w': properties.word() if uni else _W_ASCII,
             'h': _HEX_SET}[c.lower()]
        return self.complement(self.widen(s), c.isupper())

    def complement(self, s, wanted):
        """The complement in the meaning's universe; refused in ASCII text."""
        if not wanted:
            return s
        if self.meaning == 'ascii':
            raise Refused('InvalidClass')
        return charset.subtract(self.universe, s)

    def property(self):
        """`\\p` or `\\P` from the letter on: the set, widened, then complemented."""
        negate = self.peek() == 'P'
        self.pos += 1
        if self.peek() is None:
            raise Refused('InvalidClass')
        if self.peek() == '{':
            end = self.t.find('}', self.pos)
            if end < 0:
                raise Refused('InvalidClass')
            name = self.t[self.pos + 1:end]
            self.pos = end + 1
        else:
            name = self.peek()
            self.pos += 1
        if '=' in name or ':' in name:
            raise Refused('NotInProfile' if self.meaning == 'unicode' else 'InvalidClass')
        if name and name.isascii() and name not in properties.SURE_NAMES:
            raise Unknown(name)
        s = properties.by_name(name) if name.isascii() and name else None
        if self.meaning != 'unicode' or s is None:
            raise Refused('InvalidClass')
        return self.complement(self.widen(s), negate)

    def number(self, length):
        """A number escape after its letter: `{1 to 8 digits}` or `length` digits.
        Answers the number, and whether it is in braces."""
        if self.peek() == '{':
            end = self.t.find('}', self.pos)
            digits = self.t[self.pos + 1:end] if end >= 0 else ''
            if end < 0 or not 1 <= len(digits) <= 8 or any(d not in _HEX for d in digits):
                raise Refused('InvalidHex')
            self.pos = end + 1
            return self.scalar(int(digits, 16)), True
        digits = self.t[self.pos:self.pos + length]
        if len(digits) < length or any(d not in _HEX for d in digits):
            raise Refused('InvalidHex')
        self.pos += length
        return self.scalar(int(digits, 16)), False

    def scalar(self, n):
        """n where it is a scalar value."""
        if n > 0x10FFFF or 0xD800 <= n <= 0xDFFF:
            raise Refused('InvalidCodepointValue')
        return n

    # ------------------------------------------------------------ escapes

    def escape(self):
        """An escape outside a class."""
        c = self.peek(1)
        if c is None:
            raise Refused('TrailingBackslash')
        byte = self.meaning == 'byte'
        if c in 'dDsSwWhH':
            self.pos += 2
            return Item(self.letter_set(c), byte, False)
        if c in _CONTROL:
            self.pos += 2
            return self.literal(_CONTROL[c])
        if c in 'xuU':
            self.pos += 2
            n, braced = self.number({'x': 2, 'u': 4, 'U': 8}[c])
            if c == 'x' and not braced and n > 0x7F and self.o.bytes_mode != UNICODE:
                return Raw(n)
            return self.literal(n)
        if c in 'ON':
            self.pos += 2
            return self.dot(c == 'O')
        if c in 'pP':
            self.pos += 1
            return Item(self.property(), byte, False)
        if c in '<>':
            self.pos += 2
            return Assertion('start' if c == '<' else 'end')
        if c == 'b':
            for name in ('start-half', 'end-half', 'start', 'end'):
                if self.t.startswith('{%s}' % name, self.pos + 2):
                    self.pos += 4 + len(name)
                    return Assertion(name)
        if c in 'bBAz':
            self.pos += 2
            return Assertion(c)
        if c == 'Z':
            self.pos += 2
            return Assertion('ZR' if self.flags.R else 'Z')
        if c == 'G':
            self.pos += 2
            return SearchStart()
        if c == 'K':
            if self.looks:
                raise Refused('NotInProfile')
            self.pos += 2
            return KeepOut()
        if c in '123456789':
            m = _DIGITS.match(self.t, self.pos + 1)
            self.pos = m.end()
            n = int(m.group())
            if n > MAX_COUNT:
                raise Refused('InvalidEscape')
            return self.backref(('number', n))
        if c == 'k':
            return self.k_escape()
        if c in 'RXg':
            raise Refused('NotInProfile')
        if c in _PUNCT_OR_SPACE:
            self.pos += 2
            return self.literal(ord(c))
        raise Refused('InvalidEscape')

    def backref(self, target):
        """An unresolved backreference (resolved once all groups are known)."""
        fold = ''
        if self.flags.i:
            fold = 'unicode' if self.meaning == 'unicode' else 'ascii'
        return BackRef((target, len(self.names) - 1), fold)

    def k_escape(self):
        """`\\k<n>`, `\\k'n'`, `\\k<-k>`, `\\k'-k'`."""
        opener = self.peek(2)
        self.pos += 2
        if opener is None or opener not in "<'":
            raise Refused('InvalidEscape')
        closer = '>' if opener == '<' else "'"
        end = self.t.find(closer, self.pos + 1)
        if end < 0:
            raise Refused('InvalidGroupName')
        body = self.t[self.pos + 1:end]
        if body and all(properties.is_name_char(ch) for ch in body):
            self.pos = end + 1
            return self.backref(('name or number', body))
        if re.fullmatch(r'-[0-9]+', body):
            self.pos = end + 1
            return self.backref(('relative', int(body[1:])))
        level = re.fullmatch(r'(.*)[+-][0-9]+', body, re.S)
        if re.fullmatch(r'\+[0-9]+', body) or level and level.group(1) and all(
                properties.is_name_char(ch) for ch in level.group(1)):
            raise Refused('NotInProfile')
        raise Refused('InvalidGroupName')

    # ------------------------------------------------------------ groups

    def open(self):
        """One more parenthesis that is open at this place."""
        self.depth += 1
        if self.depth > self.o.depth_limit:
            raise Refused('RecursionExceeded')

    def close(self):
        """The `)` of a group."""
        if self.peek() != ')':
            raise Refused('UnclosedOpenParen')
        self.pos += 1
        self.depth -= 1

    def body(self):
        """alt `)` with the flags put back after it."""
        saved = self.flags
        tree = self.alt()
        self.flags = saved
        self.close()
        return tree

    def name(self, closer):
        """A name and what closes it."""
        begin = self.pos
        while self.peek() is not None and properties.is_name_char(self.peek()):
            self.pos += 1
        if self.pos == begin or self.peek() != closer:
            at_end = ('UnclosedOpenParen',) if self.peek() is None else ()
            raise Refused('InvalidGroupName', *at_end)
        text = self.t[begin:self.pos]
        self.pos += 1
        return text

    def group(self):
        """Any form that begins with `(`; None for a flag setting."""
        self.open()
        self.pos += 1
        if self.at('*'):
            raise Refused('NotInProfile')
        if not self.at('?'):
            return self.capturing(None)
        self.pos += 1
        c, d = self.peek(), self.peek(1)
        if c is None:
            raise Refused('UnclosedOpenParen', 'UnknownFlag')
        if c == ':':
            self.pos += 1
            return self.body()
        if c == '>':
            self.pos += 1
            return Atomic(self.body())
        if c in '=!':
            self.pos += 1
            return self.look(False, c == '!')
        if c == '<' and d is not None and d in '=!':
            self.pos += 2
            return self.look(True, d == '!')
        if c == '<':
            self.pos += 1
            return self.capturing(self.name('>'))
        if c == 'P':
            self.pos += 2
            if d == '<':
                return self.capturing(self.name('>'))
            if d == '=':
                name = self.name(')')
                self.depth -= 1
                return self.backref(('name', name))
            if d == '>':
                raise Refused('NotInProfile')
            if d is None:
                raise Refused('UnknownFlag', 'UnclosedOpenParen')
            self.pos -= 2               # `P` is no flag
        if c == '(':
            return self.conditional()
        if c in '~&+' or c in '0123456789' or (
                c == '-' and d is not None and d in '0123456789'):
            raise Refused('NotInProfile')
        return self.flag_group()

    def look(self, behind, negative):
        """Look-around, after what it begins with."""
        self.looks += 1
        tree = Look(self.body(), behind, negative)
        self.looks -= 1
        return tree

    def capturing(self, name):
        """A capturing group, or a plain one under `ignore_numbered..`."""
        if name is None and self.ignore_unnamed:
            return self.body()
        self.names.append(name)
        index = len(self.names) - 1
        return Group(index, self.body())

    def flag_group(self):
        """`(?F)` or `(?F:`."""
        on, letters, minus = {}, [0, 0], 0
        while True:
            c = self.peek()
            if c is None:
                raise Refused('UnknownFlag', 'UnclosedOpenParen')
            if c in '):':
                break
            if c == '-' and not minus:
                minus = 1
            elif c in 'imsxuR':
                on[c] = not minus
                letters[minus] += 1
                if c == 'u' and (self.meaning == 'unicode') == bool(minus):
                    raise Refused('ChangingUnicodeModeUnsupported')
            else:
                raise Refused('UnknownFlag')
            self.pos += 1
        if sum(letters) == 0 or (minus and not letters[1]):
            raise Refused('UnknownFlag')
        self.pos += 1
        on.pop('u', None)
        if c == ')':
            self.flags = replace(self.flags, **on)
            self.depth -= 1
            return None
        saved = self.flags
        self.flags = replace(self.flags, **on)
        tree = self.alt()
        self.flags = saved
        self.close()
        return tree

    def conditional(self):
        """`(?(C)` alt `)`, from the inner `(` on."""
        self.open()
        self.pos += 1
        if self.at('DEFINE)') or self.at('?'):
            raise Refused('NotInProfile')
        m = re.compile(r'([0-9]+)\)').match(self.t, self.pos)
        if m:
            self.pos = m.end()
            self.depth -= 1
            test = GroupTest((('digits', int(m.group(1))), len(self.names) - 1))
        else:
            named = None
            for o, c in ('<>', "''"):
                if self.at(o):
                    end = self.t.find(c + ')', self.pos + 1)
                    inner = self.t[self.pos + 1:end] if end >= 0 else ''
                    if inner and all(properties.is_name_char(ch) for ch in inner):
                        named = inner
                        self.pos = end + 2
                        break
            if named is not None:
                self.depth -= 1
                test = GroupTest((('name', named), len(self.names) - 1))
            else:
                test = self.body()
        return self.branches(test)

    def branches(self, test):
        """The body of a conditional and its `)`."""
        saved = self.flags
        yes = self.seq()
        rest = []
        while self.peek() == '|':
            self.pos += 1
            rest.append(self.seq())
        self.flags = saved
        self.close()
        no = Empty() if not rest else rest[0] if len(rest) == 1 else Alt(tuple(rest))
        return Cond(test, yes, no)

    # ------------------------------------------------------------ classes

    def klass(self, depth=1):
        """A class from its `[` on: its set, complemented where negated."""
        if depth > self.o.depth_limit:
            raise Refused('RecursionExceeded')
        self.pos += 1
        negate = self.peek() == '^'
        if negate:
            self.pos += 1
        start = self.pos
        result, operator, operand = None, None, []

        def apply():
            now = charset.union(*operand) if operand else ()
            if operator is None:
                return now
            return {'&&': charset.intersect, '--': charset.subtract,
                    '~~': charset.symdiff}[operator](result, now)

        while True:
            c = self.peek()
            if c is None:
                raise Refused('InvalidClass')
            if c == ']' and self.pos > start:
                self.pos += 1
                break
            two = self.t[self.pos:self.pos + 2]
            if two in ('&&', '~~') or (two == '--' and self.pos > start):
                result, operator, operand = apply(), two, []
                self.pos += 2
                continue
            m = _POSIX.match(self.t, self.pos)
            if m:
                self.pos = m.end()
                if m.group(2) not in _POSIX_SETS:
                    raise Refused('InvalidClass')
                s = charset.make(_POSIX_SETS[m.group(2)])
                operand.append(self.complement(self.widen(s), bool(m.group(1))))
                continue
            if c == '[':
                operand.append(self.klass(depth + 1))
                continue
            if c == '\\' and self.peek(1) is not None and self.peek(1) in 'dDsSwWhHpP':
                letter = self.peek(1)
                if letter in 'pP':
                    self.pos += 1
                    operand.append(self.property())
                else:
                    self.pos += 2
                    operand.append(self.letter_set(letter))
                continue
            lo = self.class_char()
            if self.peek() == '-' and self.peek(1) is not None and self.peek(1) not in ']-':
                self.pos += 1
                hi = self.range_end()
                if hi < lo:
                    raise Refused('InvalidClass')
                operand.append(self.widen(self.scalars(lo, hi)))
            else:
                operand.append(self.widen(charset.of(lo)))
        return self.complement(apply(), negate)

    def scalars(self, lo, hi):
        """The members of the universe from lo to hi."""
        return charset.intersect(((lo, hi),), self.universe)

    def range_end(self):
        """The right end of a range."""
        c = self.peek()
        if c == '[' or c == '\\' and self.peek(1) is not None and self.peek(1) in 'dDsSwWhHpP':
            raise Refused('InvalidClass')
        return self.class_char()

    def class_char(self):
        """A single character of a class: its number."""
        c = self.peek()
        self.pos += 1
        if c != '\\':
            return self.class_number(ord(c), False)
        c = self.peek()
        if c is None:
            raise Refused('TrailingBackslash', 'InvalidClass')
        self.pos += 1
        if c == 'b':
            return 8
        if c in _CONTROL:
            return _CONTROL[c]
        if c in 'xuU':
            n, braced = self.number({'x': 2, 'u': 4, 'U': 8}[c])
            return self.class_number(n, c == 'x' and not braced)
        if c in _PUNCT_OR_SPACE:
            return ord(c)
        raise Refused('InvalidEscape')

    def class_number(self, n, is_hh):
        """The number, where it may be a member of a class in this meaning (DIALECT.md, Past U+007F)."""
        if n > 0x7F and (self.meaning == 'ascii' or (self.meaning == 'byte' and not is_hh)):
            raise Refused('InvalidClass')
        return n

    # ------------------------------------------------------------ what the tree must be

    def resolve(self, e):
        """Give references and tests of groups their numbers."""
        if isinstance(e, BackRef):
            return replace(e, group=self.target(*e.group))
        if isinstance(e, GroupTest):
            return GroupTest(self.target(*e.group))
        if not children(e):
            return e
        if isinstance(e, Seq):
            return Seq(tuple(self.resolve(p) for p in e.parts))
        if isinstance(e, Alt):
            return Alt(tuple(self.resolve(p) for p in e.branches))
        if isinstance(e, Cond):
            return Cond(self.resolve(e.test), self.resolve(e.yes), self.resolve(e.no))
        return replace(e, body=self.resolve(e.body))

    def target(self, spelled, opened):
        """The group that a reference names."""
        how, what = spelled
        if how in ('name', 'name or number'):
            for k in range(len(self.names) - 1, 0, -1):
                if self.names[k] == what:
                    return k
            if how == 'name or number' and _DIGITS.fullmatch(what):
                how, what = 'number', int(what)
            else:
                raise Refused('InvalidGroupNameBackref')
        if any(n is not None for n in self.names) and \
                self.o.ignore_numbered_groups_when_named_groups_exist:
            raise Refused('NamedBackrefOnly')
        if how == 'relative':
            if not 1 <= what <= opened:
                raise Refused('InvalidBackref')
            return opened - what + 1
        if not 1 <= what < len(self.names):
            raise Refused('InvalidBackref')
        return what

    def check_tree(self, tree):
        """Look-behind has a size, the tree its bounds, and the pattern can match what it must."""
        self.check_looks(tree)
        byte = self.meaning == 'byte'
        if self.o.find_not_empty and size(tree, byte) == 0:
            raise Refused('PatternCanNeverMatch')
        if nodes(tree) > self.o.node_limit:
            raise Refused('PatternTooComplex')

    def check_looks(self, e):
        """A size for each branch of a look-behind."""
        if isinstance(e, Look) and e.behind:
            byte = self.meaning == 'byte'
            branches = e.body.branches if isinstance(e.body, Alt) else (e.body,)
            if any(size(b, byte) is None for b in branches):
                raise Refused('LookBehindNotConst')
        for c in children(e):
            self.check_looks(c)

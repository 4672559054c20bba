"""Unicode look-ups that the dialect needs, from the standard library.

Where they are approximate:
* Python 3.11 has Unicode 14, the library Unicode 18: characters that were assigned
  later differ (no generator makes them), and U+0295 and U+1171E have changed since.
* Simple case folding is derived from str.casefold (full folding) where that is
  one character; the characters with a many-character full folding that have a
  simple folding too (status S of the folding file) are listed by hand.
* Property names: general categories, a few binary properties, three scripts.
"""
import unicodedata
from functools import lru_cache

import charset
from other_alphabetic import OTHER_ALPHABETIC

# Simple foldings of characters whose full folding has several characters, and of one that was assigned after Unicode 14.
_SIMPLE = {0x1E9E: 0xDF, 0x1DF95: 0xDF, 0x1FBC: 0x1FB3, 0x1FCC: 0x1FC3, 0x1FFC: 0x1FF3,
           0x1FD3: 0x390, 0x1FE3: 0x3B0, 0xFB05: 0xFB06}
for _base in (0x1F88, 0x1F98, 0x1FA8):
    for _k in range(8):
        _SIMPLE[_base + _k] = _base + _k - 8
# The category of the one that was assigned after Unicode 14, for which Python has it unassigned.
_LATER = {0x1DF95: 'Ll'}


@lru_cache(maxsize=None)
def fold(c):
    """Simple case folding of a scalar value."""
    if c in _SIMPLE:
        return _SIMPLE[c]
    f = chr(c).casefold()
    return ord(f) if len(f) == 1 else c


@lru_cache(maxsize=None)
def fold_classes():
    """Tuples of scalar values that share a simple folding (two members or more)."""
    by = {}
    for lo, hi in charset.SCALARS:
        for c in range(lo, hi + 1):
            f = fold.__wrapped__(c)
            if f != c:
                by.setdefault(f, {f}).add(c)
    return tuple(tuple(sorted(v)) for v in by.values())


@lru_cache(maxsize=None)
def widen_unicode(s):
    """The flag `i` in Unicode meaning."""
    extra = [(c, c) for cls in fold_classes()
             if any(charset.contains(s, c) for c in cls) for c in cls]
    return charset.union(s, extra)


@lru_cache(maxsize=None)
def widen_ascii(s):
    """The flag `i` in byte and ASCII text meaning: ASCII letters alone."""
    extra = []
    for c in range(0x41, 0x5B):
        if charset.contains(s, c) or charset.contains(s, c + 32):
            extra += [(c, c), (c + 32, c + 32)]
    return charset.union(s, extra)


@lru_cache(maxsize=None)
def categories():
    """Two-letter general category -> set of scalar values."""
    runs = {}
    for lo, hi in charset.SCALARS:
        prev, begin = None, lo
        for c in range(lo, hi + 1):
            cat = _LATER.get(c) or unicodedata.category(chr(c))
            if cat != prev:
                if prev is not None:
                    runs.setdefault(prev, []).append((begin, c - 1))
                prev, begin = cat, c
        runs.setdefault(prev, []).append((begin, hi))
    return {k: charset.make(v) for k, v in runs.items()}


@lru_cache(maxsize=None)
def category(prefix):
    """Union of the general categories whose short names begin with the prefix."""
    return charset.union(*(v for k, v in categories().items() if k.startswith(prefix)))


WHITE_SPACE = charset.make([(9, 13), (0x20, 0x20), (0x85, 0x85), (0xA0, 0xA0),
                            (0x1680, 0x1680), (0x2000, 0x200A), (0x2028, 0x2029),
                            (0x202F, 0x202F), (0x205F, 0x205F), (0x3000, 0x3000)])


@lru_cache(maxsize=None)
def alphabetic():
    """The binary property Alphabetic."""
    return charset.union(category('L'), category('Nl'), OTHER_ALPHABETIC)


@lru_cache(maxsize=None)
def word():
    """`\\w` in Unicode meaning."""
    return charset.union(alphabetic(), category('M'), category('Nd'), category('Pc'),
                         charset.of(0x200C, 0x200D))


@lru_cache(maxsize=None)
def digit():
    """`\\d` in Unicode meaning."""
    return category('Nd')


def is_name_char(ch):
    """What names of groups are made of: Alphabetic, category Nd, Nl or No, or `_`."""
    c = ord(ch)
    if c < 0x80:
        return ch.isalnum() or ch == '_'
    return unicodedata.category(ch) in ('Nd', 'Nl', 'No') or charset.contains(alphabetic(), c)


_LONG = {
    'letter': 'L', 'mark': 'M', 'number': 'N', 'punctuation': 'P', 'symbol': 'S',
    'separator': 'Z', 'other': 'C', 'uppercaseletter': 'Lu', 'lowercaseletter': 'Ll',
    'titlecaseletter': 'Lt', 'modifierletter': 'Lm', 'otherletter': 'Lo',
    'nonspacingmark': 'Mn', 'spacingmark': 'Mc', 'enclosingmark': 'Me',
    'decimalnumber': 'Nd', 'letternumber': 'Nl', 'othernumber': 'No',
    'connectorpunctuation': 'Pc', 'dashpunctuation': 'Pd', 'openpunctuation': 'Ps',
    'closepunctuation': 'Pe', 'initialpunctuation': 'Pi', 'finalpunctuation': 'Pf',
    'otherpunctuation': 'Po', 'mathsymbol': 'Sm', 'currencysymbol': 'Sc',
    'modifiersymbol': 'Sk', 'othersymbol': 'So', 'spaceseparator': 'Zs',
    'lineseparator': 'Zl', 'paragraphseparator': 'Zp', 'control': 'Cc', 'format': 'Cf',
    'unassigned': 'Cn', 'privateuse': 'Co',
}


# Names that need no loose matching, and one that surely names nothing.
SURE_NAMES = frozenset(['L', 'M', 'N', 'P', 'S', 'Z', 'C', 'l', 'm', 'n', 'p', 's', 'z', 'c',
                        'Lu', 'Ll', 'Lt', 'Lm', 'Lo', 'Nd', 'Nl', 'No', 'Mn', 'Mc', 'Me',
                        'Pc', 'Pd', 'Ps', 'Pe', 'Pi', 'Pf', 'Po', 'Sm', 'Sc', 'Sk', 'So',
                        'Zs', 'Zl', 'Zp', 'Cc', 'Cf', 'Nope'])


@lru_cache(maxsize=None)
def by_name(name):
    """A set for `\\p{name}`, or None. Loose matching of the name is approximated
    by dropping space, `_` and `-` and by lower case."""
    if len(name) == 1 and name.upper() in 'LMNPSZC':
        return category(name.upper())
    n = ''.join(c for c in name if c not in ' _-').lower()
    for k in categories():
        if n == k.lower():
            return categories()[k]
    if n in _LONG:
        return category(_LONG[n])
    if n in ('alphabetic', 'alpha'):
        return alphabetic()
    if n in ('whitespace', 'wspace', 'space'):
        return WHITE_SPACE
    if n in ('greek', 'grek'):
        return _script('GREEK')
    if n in ('cyrillic', 'cyrl'):
        return _script('CYRILLIC')
    return None


def _script(word_):
    """A rough script set: letters whose character name begins with the word.
    Only good for the ordinary letters of the script."""
    out = []
    for lo, hi in category('L'):
        if lo > 0x2E00:
            break
        out += [(c, c) for c in range(lo, hi + 1)
                if unicodedata.name(chr(c), '').startswith(word_)]
    return charset.make(out)

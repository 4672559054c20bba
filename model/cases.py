"""Random cases for the program `fre`, with the model's answers. A seed gives the same cases each time.

What a case may hold is told by features:

    core       literals, `\\` before punctuation, `?`, `??`, `|`, `(?:..)`; fre find
    groups     capturing groups; fre captures
    stars      `*` `+` `*?` `+?`
    easy       classes, flags, anchors, escapes, names, counted repeats, comments
    hard       backreferences, look-around, atomic and possessive parts
    keep       `\\K`, `\\G`, conditionals
    replace    fre split, fre replace and templates
    sets       fre set
    tokens     fre tokens; where nothing but sets and tokens is asked for, members have all forms
    long       patterns of plain forms, and texts of 300 to 3,000 characters of their own pieces
               (pieces.py): all patterns, or one in five beside those of other features
    malformed  faulty patterns of the features that are asked for, and wrong words
    runs       loops of one item and prices of attempts (runs.py): all patterns, or one in five
               beside those of other features

All other features but malformed come with runs and with long.
"""
import random

import charset
import tree as T
from dialect import Refused, Unknown
from meaning import Explosion, Regex
from pieces import Pieces
from program import run
from runs import Runs

FEATURES = ['core', 'groups', 'stars', 'easy', 'hard', 'keep', 'replace', 'sets',
            'tokens', 'malformed', 'runs', 'long']
# Those that come with others.
FORMS = set(FEATURES) - {'malformed', 'runs', 'long'}
LETTERS = 'aaaabbbccx'
MIXED = 'abckKsSxX12_ -é\u00c9ß\u1e9e\u017f\u212aµμ日本😀Σσς\n'
ALPHABET = sorted(set(LETTERS + MIXED + 'ABCyz0345.,;$#!()[]{}|*+?^\\/"\'<>@\t\r'))
PUNCT = '.,;$#!()[]{}|*+?^\\/-"\'@&~=:%`_ '
DULL = {'0..0 \n'} | {'0 0..0 \n' + ''.join(
    '%d none\n' % k for k in range(1, n)) for n in range(1, 9)}
NAMES = ['n', 'm', 'word', 'é', '_x1', '日本', 'n2', '1']


def needs(p):
    """The features whose forms a pattern text shows, by a rough reading."""
    out, i = {'core'}, 0
    while i < len(p):
        c, d = p[i], p[i + 1:i + 2]
        if c == '\\':
            if d in tuple('123456789k'):
                out.add('hard')
            elif d in ('G', 'K'):
                out.add('keep')
            elif d and (d not in PUNCT or d in '<>'):
                out.add('easy')
            i += 2
            continue
        if c == '(':
            if d != '?':
                out.add('groups' if d != '*' else 'easy')
            else:
                e = p[i + 2:i + 4]
                if e[:1] in ('=', '!', '>') or e in ('<=', '<!', 'P='):
                    out.add('hard')
                elif e[:1] == '(':
                    out.add('keep')
                elif e[:1] != ':':
                    out.add('easy')
        elif c in '[.^${':
            out.add('easy')
        elif c == '+' and p[i - 1:i] in tuple('*+?}'):
            out.add('hard')
        elif c in '*+':
            out.add('stars')
        i += 1
    return out


class Gen(Runs, Pieces):
    """One stream of random cases."""

    def __init__(self, seed, features, options):
        self.r, self.on, self.options = random.Random(seed), set(features), options
        self.of_runs, self.of_long = False, False
        self.alone, self.of_sets = len(self.on) == 1, self.on <= {'sets', 'tokens'}
        if self.has('runs') or self.has('long'):
            self.on |= FORMS
        elif self.of_sets:
            self.on |= FORMS - {'sets', 'tokens'}

    def has(self, feature):
        """Is a feature asked for?"""
        return feature in self.on

    def chance(self, p):
        """True with probability p."""
        return self.r.random() < p

    # ------------------------------------------------------------ patterns

    def pattern(self):
        """A pattern, mostly accepted."""
        self.of_runs = self.has('runs') and (self.alone or self.chance(0.2))
        self.of_long = self.has('long') and not self.of_runs and (self.alone or self.chance(0.2))
        if self.of_runs:
            return self.run_pattern()
        if self.of_long:
            return self.long_pattern()
        self.groups, self.names, self.loose = 0, [], self.chance(0.3)
        self.letters = LETTERS if self.chance(0.6) else LETTERS + MIXED
        flags = ''
        if self.has('easy') and self.chance(0.2):
            flags = '(?%s)' % self.flag_letters()
        return flags + self.alt(self.r.choice((1, 2, 2, 3, 3)), self.r.choice((1, 2, 3, 4)))

    def flag_letters(self):
        """Flags of a flag group, `x` less often."""
        yes = ''.join(self.r.sample('imsR' + ('x' if self.chance(0.3) else 'i'),
                                    self.r.choice((1, 1, 2))))
        if self.chance(0.15):
            yes += '-' + self.r.choice('imsR')
        return 'u' + yes if self.chance(0.05) else yes

    def alt(self, depth, width):
        """Branches."""
        n = self.r.choice((1, 1, 1, 2, 2, 3)) if depth > 0 else 1
        return '|'.join(self.seq(depth, width) for _ in range(n))

    def seq(self, depth, width):
        """Atoms with quantifiers."""
        n = self.r.randint(0 if self.chance(0.15) else 1, max(1, width))
        return ''.join(self.piece(depth) for _ in range(n))

    def piece(self, depth):
        """One atom, perhaps quantified."""
        if self.has('easy') and self.chance(0.02):
            return self.r.choice(('(?#note)', '(?i)', '(?-i)', '(?s)', '(?m)', '(?:)'))
        return self.atom(depth) + self.quant()

    def quant(self):
        """A quantifier or nothing."""
        if self.chance(0.62):
            return ''
        forms = ['?', '??']
        if self.has('stars'):
            forms += ['*', '+', '*?', '+?', '*', '+']
        if self.has('easy'):
            lo = self.r.randint(0, 3)
            forms.append(self.r.choice((
                '{%d}' % lo, '{%d,}' % lo, '{%d,%d}' % (lo, lo + self.r.randint(0, 2)),
                '{,%d}' % lo, '{%d,%d}?' % (lo, lo + 1), '{%d,}?' % lo, '{%d}?' % lo)))
        if self.has('hard'):
            forms.append(self.r.choice(('*+', '++', '?+', '{1,2}+', '{2}+')))
        return self.r.choice(forms)

    def literal(self):
        """A literal character, perhaps escaped."""
        if self.chance(0.06):
            return '\\' + self.r.choice([c for c in PUNCT if c not in '<>'])
        c = self.r.choice(self.letters)
        if self.has('easy') and self.chance(0.03):
            return self.r.choice(('\\x{%x}' % ord(c), '\\u{%X}' % ord(c), '\\t', '\\n',
                                  '\\U%08x' % ord(c),
                                  '\\x%02X' % ord(c) if ord(c) < 256 else c))
        return c

    def atom(self, depth):
        """An atom of the features asked for."""
        kinds = ['literal'] * 8
        if depth > 0:
            kinds += ['plain'] * 2
            if self.has('groups'):
                kinds += ['group'] * 3
            if self.has('easy'):
                kinds += ['named', 'flags']
            if self.has('hard'):
                kinds += ['look', 'look', 'atomic']
            if self.has('keep'):
                kinds += ['cond', 'cond']
        if self.has('easy'):
            kinds += ['class'] * 3 + ['escape'] * 2 + ['dot', 'anchor']
        if self.has('hard'):
            kinds += ['backref'] * (2 if self.groups else 0)
        if self.has('keep') and self.chance(0.4):
            kinds += ['keep']
        return getattr(self, 'atom_' + self.r.choice(kinds))(depth)

    def atom_literal(self, _depth):
        """A literal."""
        return self.literal()

    def atom_plain(self, depth):
        """`(?:..)`"""
        return '(?:%s)' % self.alt(depth - 1, 2)

    def atom_group(self, depth):
        """`(..)`"""
        self.groups += 1
        return '(%s)' % self.alt(depth - 1, 2)

    def atom_named(self, depth):
        """`(?<n>..)`"""
        self.groups += 1
        name = self.r.choice(NAMES[:-1] if self.chance(0.95) else NAMES)
        self.names.append(name)
        return '(?%s<%s>%s)' % (self.r.choice(('', 'P')), name, self.alt(depth - 1, 2))

    def atom_flags(self, depth):
        """`(?F:..)`"""
        f = self.flag_letters()
        inner = self.alt(depth - 1, 2)
        if 'x' in f.split('-')[0] and self.chance(0.7):
            inner = ' ' + inner + self.r.choice((' ', ' # c\n', '\t'))
        return '(?%s:%s)' % (f, inner)

    def atom_atomic(self, depth):
        """`(?>..)`"""
        return '(?>%s)' % self.alt(depth - 1, 2)

    def atom_look(self, depth):
        """Look-around; look-behind over short fixed branches."""
        if self.chance(0.6):
            return '(?%s%s)' % (self.r.choice('==!'), self.alt(depth - 1, 2))
        branches = [''.join(self.fixed() for _ in range(self.r.randint(1, 2)))
                    for _ in range(self.r.choice((1, 1, 2)))]
        return '(?<%s%s)' % (self.r.choice('==!'), '|'.join(branches))

    def fixed(self):
        """A piece with a size."""
        forms = ['literal', 'literal']
        if self.has('easy'):
            forms += ['class', 'escape', 'dot', 'anchor']
        return getattr(self, 'atom_' + self.r.choice(forms))(0)

    def atom_backref(self, _depth):
        """A backreference."""
        k = self.r.randint(1, max(1, self.groups))
        forms = ['\\%d' % k, "\\k'%d'" % k, '\\k<%d>' % k, '\\k<-%d>' % k, '\\%d' % k]
        if self.names:
            n = self.r.choice(self.names)
            forms += ['(?P=%s)' % n, '\\k<%s>' % n, "\\k'%s'" % n]
        form = self.r.choice(forms)
        return form if not form[-1].isdigit() else '(?:%s)' % form if self.chance(0.5) else form

    def atom_keep(self, _depth):
        """`\\K` or `\\G`."""
        return self.r.choice(('\\K', '\\K', '\\G'))

    def atom_cond(self, depth):
        """A conditional."""
        tests = [self.seq(0, 1)]
        if self.groups:
            tests += [str(self.r.randint(1, self.groups))] * 3
        if self.names:
            tests += ["'%s'" % self.r.choice(self.names), '<%s>' % self.r.choice(self.names)]
        if self.has('hard') and self.chance(0.2):
            tests.append('(?=%s)' % self.seq(0, 1))
            return '(?(%s)%s|%s)' % ('(?:%s)' % tests[-1], self.seq(depth - 1, 1),
                                     self.seq(depth - 1, 1))
        return '(?(%s)%s%s)' % (self.r.choice(tests), self.seq(depth - 1, 2),
                                '|' + self.alt(depth - 1, 2) if self.chance(0.7) else '')

    def atom_dot(self, _depth):
        """Any character."""
        return self.r.choice(('.', '.', '.', '\\O', '\\N'))

    def atom_anchor(self, _depth):
        """An assertion."""
        return self.r.choice(('^', '$', '\\A', '\\z', '\\Z', '\\b', '\\B', '\\<', '\\>',
                              '\\b{start}', '\\b{end}', '\\b{start-half}', '\\b{end-half}',
                              '(?m:^)', '(?m:$)', '(?mR:$)', '(?mR:^)'))

    def atom_escape(self, _depth):
        """A set by an escape."""
        return self.r.choice(('\\w', '\\W', '\\d', '\\D', '\\s', '\\S', '\\h', '\\H',
                              '\\p{L}', '\\pL', '\\P{L}', '\\p{Lu}', '\\p{Ll}', '\\p{Nd}',
                              '\\PN', '\\p{P}', '\\pz'))

    def atom_class(self, _depth, level=0):
        """A class."""
        out = '[' + ('^' if self.chance(0.25) else '')
        if self.chance(0.05):
            out += ']'
        for k in range(self.r.choice((1, 2, 2, 3))):
            if k and self.chance(0.15):
                out += self.r.choice(('&&', '--', '~~'))
            out += self.class_item(level)
        return out + ']'

    def class_item(self, level):
        """An item of a class."""
        n = self.r.random()
        if n < 0.35:
            return self.r.choice(('a', 'b', 'c', 'x', 'k', 'é', 'ß', '1', ' ', '.', '$', '日',
                                  '\u212a', '😀', '_'))
        if n < 0.7:
            return self.r.choice(('a-c', 'b-x', 'A-Z', '0-9', 'a-z', 'à-ÿ', '一-龠', '!-/',
                                  'α-ω', '\\x61-\\x63', '+--'))
        if n < 0.8:
            return self.r.choice(('\\w', '\\d', '\\s', '\\W', '\\D', '\\S', '\\h', '\\pL',
                                  '\\p{Lu}', '\\P{L}'))
        if n < 0.88:
            return '[:%s%s:]' % (self.r.choice(('', '', '^')), self.r.choice(
                ('alpha', 'digit', 'alnum', 'upper', 'lower', 'punct', 'space', 'word',
                 'xdigit', 'ascii', 'blank', 'graph', 'print', 'cntrl')))
        if n < 0.94:
            return self.r.choice(('\\n', '\\t', '\\]', '\\[', '\\^', '\\-', '\\\\', '\\x{e9}',
                                  '\\b', '-', '\\u00e9'))
        return self.atom_class(0, level + 1) if level < 2 else 'a'

    # ------------------------------------------------------------ texts

    def char(self):
        """A character of a text."""
        return self.r.choice(self.letters if self.chance(0.85) else ALPHABET)

    def sample(self, e, spans):
        """A text that the tree might match; spans hold what groups matched."""
        r = self.r
        if isinstance(e, T.Item):
            for _ in range(6):
                c = self.char()
                if charset.contains(e.chars, ord(c)):
                    return c
            options = [c for c in ALPHABET if charset.contains(e.chars, ord(c))]
            if options:
                return r.choice(options)
            c = chr(e.chars[0][0]) if e.chars else 'a'
            return c if c != '\0' else 'a'
        if isinstance(e, T.Seq):
            return ''.join(self.sample(p, spans) for p in e.parts)
        if isinstance(e, T.Alt):
            return self.sample(r.choice(e.branches), spans)
        if isinstance(e, T.Group):
            spans[e.index] = self.sample(e.body, spans)
            return spans[e.index]
        if isinstance(e, T.BackRef):
            text = spans.get(e.group, '')
            return text.swapcase() if e.fold and self.chance(0.5) else text
        if isinstance(e, T.Repeat):
            n = e.lo + r.choice((0, 0, 1, 1, 2))
            n += r.choice((0, 0, 4)) if self.of_runs else 0
            n = min(n if e.hi is None else min(n, e.hi), 6 if self.of_runs else 4)
            return ''.join(self.sample(e.body, spans) for _ in range(n))
        if isinstance(e, T.Atomic):
            return self.sample(e.body, spans)
        if isinstance(e, T.Look):
            return self.sample(e.body, spans) if self.chance(0.6 if self.of_runs else 0.3) else ''
        if isinstance(e, T.Cond):
            if isinstance(e.test, T.GroupTest):
                return self.sample(e.yes if e.test.group in spans else e.no, spans)
            if self.chance(0.5):
                return self.sample(e.test, spans) + self.sample(e.yes, spans)
            return self.sample(e.no, spans)
        return ''

    def text(self, trees):
        """A haystack made of samples and noise."""
        if self.of_runs:
            return self.run_text(trees)
        if self.of_long:
            return self.long_text(trees)
        out = []
        for _ in range(self.r.choice((1, 1, 2, 3))):
            if self.chance(0.4):
                out.append(''.join(self.char() for _ in range(self.r.randint(0, 3))))
            if trees and self.chance(0.9):
                out.append(self.sample(self.r.choice(trees), {})[:24])
        text = ''.join(out)
        if text and self.chance(0.25):
            i = self.r.randrange(len(text))
            text = text[:i] + self.r.choice(('', self.char())) + text[i + 1:]
        return text[:40].replace('\0', 'a')

    def template(self):
        """A template."""
        parts = ['$0', '$1', '${1}', '${2}', '$2', '$$', '-', 'a', '$', '${', '${1', '}', '$1a',
                 '${1}a', '$n', '${n}', '${word}', '$é', '${é}', '$_x1', '\\1', 'ß', '$ ',
                 '$99999999999999999999', '${99999999999999999999}', '$9', '${0}', '${a b}',
                 '${}', '$-', '日', '${01}', '$01']
        return ''.join(self.r.choice(parts) for _ in range(self.r.choice((0, 1, 1, 2, 3))))

    # ------------------------------------------------------------ malformed

    def faulty(self):
        """A pattern with a fault, of the features asked for."""
        forms = ['%s)%s', '%s(%s', '%s(?:%s', '?%s%s', '%s|?%s', '%s(?:)?%s', '%sa???%s',
                 '%s%s\\', '%s(?:(?:))??%s', '(%s|%s', '(?:%s))%s',
                 '(?:' * 200 + '%s%s' + ')' * 200]
        if self.has('stars'):
            forms += ['*%s%s', '%s|+%s', '%sa**%s', '%sa+*%s', '%s(?:)*%s', '%sa*?+%s']
        if self.has('easy'):
            forms += ['%sx{3,1}%s', '%sa{4294967296}%s', '%sa{5,2}?%s', '%sa{2}{3}%s',
                      '%s(?i)+%s', '{2}%s%s', '%s(?i:)*%s', '%s\\q%s', '%s\\y%s', '%s\\0%s',
                      '%s\\é%s', '%s\\xZ%s', '%s\\u12%s', '%s\\x{}%s', '%s%s\\x1',
                      '%s\\x{110000}%s', '%s\\uD800%s', '%s\\UFFFFFFFF%s', '%s[b-a]%s',
                      '%s%s[a', '%s[[:foo:]]%s', '%s\\p{Nope}%s', '%s%s\\p', '%s\\p{}%s',
                      '%s[a-\\d]%s', '%s(?z)%s', '%s(?)%s', '%s(?i-)%s', '%s(?i--s)%s',
                      '%s(?Pq)%s', '%s(?<>a)%s', '%s(?<a!>b)%s', '%s(?P<a b>c)%s',
                      '%s(?-u)%s', '%s(?-u:a)%s', '%s\\R%s', '%s\\X%s', '%s(*FAIL)%s',
                      '%s(?~a)%s', '%s(?&n)%s', '%s(?P>n)%s', '%s(?1)%s', '%s(?+1)%s',
                      '%s(?-1)%s', '%s\\g<1>%s', '%s\\p{sc=Greek}%s', '%s[\\q]%s', '%s[\\A]%s',
                      '%s(?#%s', '%sa{5000000}%s', '%s(?:(?:a{3000}){3000})%s', '%s[\\xZ]%s',
                      '%s[\\u{D800}]%s', '%s(?U)%s', '%s\\p{é}%s', '[' * 200 + 'a' + ']' * 200
                      + '%s%s']
        if self.has('hard'):
            forms += ['%s\\99%s', '%s\\k<99>%s', '%s\\k<-99>%s', '%s\\k<0>%s', '%s\\k<-0>%s',
                      '%s\\k<nope>%s', '%s(?P=nope)%s', "%s\\k'nope'%s", '%s(?<=a+)%s',
                      '%s(?<!a|b*)%s', '%s(?<=(?:a|bc)d)%s', '%s\\k%s', '%s\\k<+1>%s',
                      '%s\\k<nope+1>%s', '%s\\k<nope-1>%s', '%s\\99999999999%s', '%s\\k<>%s',
                      '%s\\k<4294967296>%s', '%s(?=%s', '%s(?>)?*%s', '%s(?<=(a|bc))%s']
        if self.has('keep'):
            forms += ['%s(?=a\\K)%s', '%s(?(99)a)%s', '%s(?(<nope>)a)%s', "%s(?('nope')a)%s",
                      '%s(?(0)a)%s', '%s(?(DEFINE)a)%s', '%s(?(?=a)b|c)%s', '%s(?(1)a%s',
                      '%s(?(99999999999)a)%s', '%s(?<!\\K)%s']
        return self.r.choice(forms) % (self.pattern(), self.pattern() if self.chance(0.5) else '')

    def mutated(self):
        """A pattern with one character dropped, put in or changed."""
        p = self.pattern()
        i = self.r.randint(0, len(p))
        pool = '()[]{}|*+?\\^$-' if self.has('easy') else '()|?\\'
        return self.r.choice((p[:i] + p[i + 1:], p[:i] + self.r.choice(pool) + p[i:]))

    def wrong_words(self):
        """Words that fre has no use for."""
        return self.r.choice(([], ['find'], ['find', 'a'], ['find', 'a', 'b', 'c'], ['bogus'],
                              ['captures', 'a'], ['Find', 'a', 'a'], ['', 'a', 'a']))

    # ------------------------------------------------------------ cases

    def patterns_of(self, n):
        """n patterns and their trees; accepted ones, unless faults are asked for."""
        patterns, trees = [], []
        while len(patterns) < n:
            bad = self.has('malformed') and self.chance(0.35 / n)
            p = self.pattern()
            if bad:
                p = self.faulty() if self.chance(0.7) else self.mutated()
            if not needs(p) <= self.on | {'core'}:
                continue
            try:
                trees.append(Regex(p, self.options).tree)
            except Refused:
                if not bad:
                    continue
            except Unknown:
                continue
            patterns.append(p)
        return patterns, trees

    def accepted(self, patterns, options):
        """The regexes of those patterns that are accepted."""
        regexes = []
        for it in patterns:
            try:
                if needs(it) <= self.on | {'core'}:
                    regexes.append(Regex(it, options))
            except (Refused, Unknown):
                continue
        return regexes

    def words(self):
        """The words of one case."""
        if self.has('malformed') and self.chance(0.02):
            return self.wrong_words()
        commands = [] if self.of_sets else ['find', 'find']
        if self.has('groups') and not self.of_sets:
            commands += ['captures'] * 3
        if self.has('replace') and not self.of_sets:
            commands += ['split', 'replace', 'replace']
        if self.has('sets'):
            commands += ['set']
        if self.has('tokens'):
            commands += ['tokens']
        command = self.r.choice(commands)
        if command in ('set', 'tokens'):
            if self.of_sets or self.chance(0.5):
                members = self.accepted(self.members(), self.options)
                text = self.text_of_members([it.tree for it in members])
                return [command, text, *(it.pattern.text for it in members)]
            patterns, trees = self.patterns_of(self.r.choice((0, 1, 2, 3, 3, 4)))
            return [command, self.text(trees), *patterns]
        patterns, trees = self.patterns_of(1)
        words = [command, patterns[0], self.text(trees)]
        return words + [self.template()] if command == 'replace' else words

    def case(self):
        """The words of one cheap case, and what `fre` does with them."""
        while True:
            words = self.words()
            try:
                r = run(words, self.options)
            except Explosion:
                continue
            if r.stdout in DULL and not self.chance(0.2):
                continue                # an empty match at 0 shows little
            return words, r

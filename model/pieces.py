"""Patterns of plain forms over a few characters and words, and texts made of their own pieces: sets, tokens, and the feature `long`.

The members of a set share the characters and words, so that many begin alike, end at one place, or are prefixes of one another.
Each form is cheap for the model, which asks all members at each position of texts of up to 300 characters, and one pattern at each
position of texts of up to 3,000."""
from runs import PALETTES

# Forms. A `W` is a word, an `L` a character, an `S` a set of characters.
EASY = ['W', 'W', 'W', 'W', '(?i:W)', '\\bW\\b', 'W|W', 'W|W|W|W', '(?:W|W)\\b', 'W??L', 'S+', 'S+', 'S*', 'S+?', 'S{2}', 'S{1,3}',
        'SS*', 'L*', 'L*L', 'L+|W', 'S+L', '(S)(S*)', '(S+)L(S+)?', 'S+\\b', 'LS*?L', 'L[^L]*L', 'L(?:[^L\\\\]|\\\\.)*L', '\\s+',
        '\\d+(?:\\.\\d+)?', '(?m:^)S+', 'S+(?m:$)', '(?s:.)', '.', '', 'L?', 'LLLL|L', '(?:LL)+', '(?:L|LL)+L']
HARD = ['W(?=L)', 'W(?!L)', 'S++', 'S*+L', 'S+(?=L)', 'S+(?!S)', '(?<=L)S+', '(?<!L)W', '(?<=W)S', '(?>S+|L)L', '(?>W|L)S', '(S)\\1',
        '(S+)L\\1', '(L)?S+(?(1)L)', '(?(?:L)S+|W)', 'L\\KS+', 'S*\\KL', 'W\\K', '\\GW', '\\GS+', '\\b(?=S)S+(?<!L)', 'L(?>[^L]+|LL)*L',
        'L[^L]*+L', '(?=S)', '(?<!S)', '(?=(S+))L', '(?!W)S+', '(?:(?!W)S)+', 'S+?(?=W|$)', '(?=S*L)S', '(?<=L|LL)S{1,2}+', 'S{2,3}+L?',
        '(?<a>S)S*?\\k<a>']
SETS = ['.', '\\w', '\\w', '\\d', '\\s', '\\S', '\\W', '[a-z]', '[a-c]', '[^a]', '[^"\\n]', '[[:alpha:]]', '\\p{L}', '\\p{Lu}', '[LL]',
        '[LL]', '[^L]', '[LLL]']
NOISE = ' .,=1"\n'
# Texts of sets, and those of the feature `long`, of which a third is long, in characters.
SIZES = [0, 8, 20, 40, 80, 150, 300, 300]
SHORT_SIZES, LEAST, MOST = [20, 60, 150, 299], 300, 3000


class Pieces:
    """The part of `Gen` that makes them."""

    def begin_pieces(self):
        """Chooses the characters and words."""
        self.groups, self.names, self.of_runs = 0, [], False
        self.letters = self.r.choice(PALETTES + ['abc', 'ab1 ', 'a"b\\ '])
        self.wordlist = [''.join(self.r.choice(self.letters) for _ in range(self.r.choice((1, 2, 2, 3, 4)))) for _ in range(4)]

    def members(self):
        """The patterns of a set, of which some may be refused."""
        self.begin_pieces()
        hard = self.r.choice((0, 0.15, 0.4)) if self.has('hard') else 0
        patterns = [self.member(hard) for _ in range(self.r.choice((1, 2, 3, 3, 4, 5, 8, 12, 20, 30)))]
        if self.chance(0.6):
            patterns.append('(?s:.)')
        return patterns[:30]

    def member(self, hard):
        """A pattern of one of the forms; one in eight is any pattern of the features that are asked for."""
        if not self.chance(0.12):
            return self.of_form(HARD if self.chance(hard) else EASY)
        letters, pattern = self.letters, self.pattern()
        self.letters, self.of_runs, self.of_long = letters, False, False
        return pattern

    def long_pattern(self):
        """A pattern of some forms in a row or as branches."""
        self.begin_pieces()
        hard = 0.3 if self.has('hard') and self.chance(0.3) else 0
        forms = [self.of_form(HARD if self.chance(hard) else EASY) for _ in range(self.r.choice((1, 1, 2, 2, 3, 4)))]
        return self.r.choice(('|', '|', '')).join('(?:%s)' % it if '|' in it else it for it in forms)

    def of_form(self, forms):
        """A pattern of one of the forms."""
        out = ''
        for it in self.r.choice(forms):
            if it == 'S':
                out += ''.join(self.escaped() if one == 'L' else one for one in self.r.choice(SETS))
            elif it == 'L':
                out += self.escaped()
            elif it == 'W':
                out += ''.join(map(self.escaped, self.r.choice(self.wordlist)))
            else:
                out += it
        return out

    def escaped(self, c=None):
        """A character as a pattern."""
        c = c or self.r.choice(self.letters)
        return {'\n': '\\n', '\r': '\\r'}.get(c, '\\' + c if c in '\\-"' else c)

    def text_of_pieces(self, trees, size):
        """A text of so many characters: pieces that the trees may match, such with a fault, and noise."""
        out, clean = '', self.chance(0.5)
        while len(out) < size:
            n = self.r.random()
            if trees and (clean or n < 0.6):
                out += self.sample(self.r.choice(trees), {})[:40] or self.r.choice(NOISE)
            elif trees and n < 0.8:
                out += self.sample(self.r.choice(trees), {})[:-1] + self.r.choice(NOISE)
            else:
                out += self.r.choice((self.r.choice(NOISE), self.r.choice(self.letters) * self.r.randint(1, 8)))
        return out[:size].replace('\0', 'a')

    def text_of_members(self, trees):
        """A text for a set."""
        return self.text_of_pieces(trees, self.r.choice(SIZES))

    def long_text(self, trees):
        """A text for a pattern of the feature `long`."""
        return self.text_of_pieces(trees, self.r.randint(LEAST, MOST) if self.chance(0.34) else self.r.choice(SHORT_SIZES))

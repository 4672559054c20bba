"""Patterns and texts for two shortcuts of the machine: the feature `runs` of cases.py.

A loop of one item is read in one step, and going back passes over the places at which what follows dies at once. An attempt that is
told to die is not made, and its returns are added. So here a loop shares few characters with what follows, and they stand in long
runs. A pattern begins with what tells an attempt's price: choices, assertions, look-behinds."""

# Characters that a pattern shares with its text, of one byte to four.
PALETTES = ['ab', 'ab', 'abc', 'ab1', 'a"b', 'a b', 'ab\n', 'a_1 ', 'a\r\n', 'a-1', 'aé', 'éÉe', 'aé日', 'a日😀', '日本', 'kK\u212a',
            's\u017fS', 'µμa', 'ßs\u1e9e', 'x😀 ']
SETS = ['.', '.', '\\w', '\\w', '\\d', '\\s', '\\W', '\\D', '\\S', '\\N', '\\O', '(?s:.)', '(?R:.)', '[a-z]', '[^"]', '[^\\n]',
        '[^a-c]', '[aé]', '[^é]', '[é-日]', '[[:alpha:]]', '\\p{L}', '\\P{L}', '(?i:k)', '(?i:é)', '\\x61', '\\xC3', '\\xE9', '\\xFF',
        '[\\x80-\\xFF]']
# What is put after an item. About half makes a loop of one item, perhaps after copies of it; the others are for the contrast.
LOOPS = ['*', '+', '{2,}', '{0,}', '*', '+', '*', '+', '*+', '++', '{2,}+', '*?', '+?', '{1,}?', '?', '??', '{2}', '{,2}', '{1,3}',
         '{2,3}+', '{1,3}?', '{,4}+', '{2,9}']
TURNS = ['', '', '', '*', '+', '?', '*?', '+?', '??', '{2}', '{1,2}', '{,2}', '{2,}', '*+', '++', '?+']
ASSERTIONS = ['\\b', '\\b', '\\B', '^', '^', '\\A', '\\G', '(?m:^)', '(?m:^)', '(?mR:^)', '\\<', '\\>', '\\b{start-half}',
              '\\b{end-half}', '$', '\\Z', '(?m:$)', '(?mR:$)']
WORDS = ['let ', 'fn ', 'ab', 'a b', '\r\n']
OPENINGS = ['(', '(', '(', '(?:', '(?:', '(?:', '(?>', '(?>', '(?=', '(?!', '(?i:']


class Runs:
    """The part of `Gen` that makes them."""

    def run_pattern(self):
        """A pattern, mostly hard."""
        self.groups, self.names, self.letters = 0, [], self.r.choice(PALETTES)
        fronts = ''.join(self.run_front(1) for _ in range(self.r.choice((0, 1, 1, 1, 2))))
        pattern = fronts + self.run_alt(self.r.choice((0, 0, 0, 1, 2)))
        return self.made_hard(pattern) if self.chance(0.6) else pattern

    def made_hard(self, pattern):
        """The pattern with a part that makes it hard."""
        item = self.run_item()
        forms = ['(?!%s%s)%%s' % (item, self.run_item()), '(?=%s?)%%s' % item, '(?<!%s)%%s' % item, '(?>%s|)%%s' % item,
                 '%%s(?=%s|)' % item, '%%s(?!%s)' % item, '%%s%s*+' % item, '%%s(?<=%s)' % item, '(?>%s)']
        if self.groups:
            forms += ['%%s\\k<%d>' % self.r.randint(1, self.groups)] * 3
        form = self.r.choice(forms).split('%s', 1)
        return ('(?:%s)' % pattern if '|' in pattern and form != ['(?>', ')'] else pattern).join(form)

    def run_alt(self, depth):
        """Branches."""
        branches = [self.run_seq(depth) for _ in range(self.r.choice((1, 1, 1, 2, 2, 3)) if depth > 0 else 1)]
        if depth > 0 and self.chance(0.1):
            branches.append('')
        return '|'.join(branches)

    def run_seq(self, depth):
        """Loops, and what follows them."""
        kinds = ['loop'] * 5 + ['item'] * 3 + ['front', 'twice']
        if depth > 0:
            kinds += ['part'] * 4 + ['test']
        if self.groups:
            kinds += ['again']
        return ''.join(getattr(self, 'run_' + self.r.choice(kinds))(depth) for _ in range(self.r.choice((1, 1, 2, 2, 2, 3, 4))))

    def run_literal(self):
        """A character of the palette."""
        return self.r.choice(self.letters)

    def run_item(self, _depth=0):
        """An item."""
        if self.chance(0.45):
            return self.run_literal()
        if self.chance(0.4):
            return '[%s%s]' % ('^' * self.chance(0.4), self.run_literal() + self.run_literal() * self.chance(0.6))
        return self.r.choice(SETS)

    def run_loop(self, _depth):
        """A loop of an item, which may stand in a group, or end the region that it stands in."""
        item, loop = self.run_item(), self.r.choice(LOOPS)
        if self.chance(0.2):
            self.groups += 1
            item = '(%s)' % item
        if self.chance(0.15):
            return '%s%s%s%s)' % (self.r.choice(('(?>', '(?=', '(?!', '(?:')), self.run_item() * self.chance(0.3), item, loop)
        return item + loop

    def run_twice(self, _depth):
        """Loops of one item twice."""
        item = self.run_item()
        return item + self.r.choice(LOOPS) + item + self.r.choice(LOOPS)

    def run_part(self, depth):
        """A group or look-around, perhaps repeated."""
        opening = self.r.choice(OPENINGS)
        self.groups += opening == '('
        return '%s%s)%s' % (opening, self.run_alt(depth - 1), self.r.choice(TURNS) if self.chance(0.98) else '{40}')

    def run_again(self, _depth):
        """A backreference."""
        return '\\k<%d>%s' % (self.r.randint(1, self.groups), self.r.choice(('', '', '?', '*')))

    def run_test(self, depth):
        """A conditional."""
        test = self.r.randint(1, self.groups) if self.groups and self.chance(0.7) else '(?:%s)' % self.run_seq(0)
        return '(?(%s)%s|%s)' % (test, self.run_seq(0), self.run_seq(0))

    def run_front(self, _depth):
        """What tells a price at the begin of a pattern."""
        n = self.r.random()
        if n < 0.25:
            return self.r.choice(ASSERTIONS)
        if n < 0.7:
            return '(?<%s%s)' % (self.r.choice('=!!'), '|'.join(self.run_behind() for _ in range(self.r.choice((1, 1, 1, 2, 3)))))
        if n < 0.88:
            items = [self.run_item() for _ in range(self.r.choice((1, 2, 2, 3)))]
            if self.chance(0.1):
                items *= self.r.choice((4, 8, 16, 17))
            items += [''] * self.chance(0.2)
            return '(?:%s)%s' % ('|'.join(items), self.r.choice(('?', '?', '??', '{,2}', '')))
        if n < 0.97:
            return '(?%s%s%s)' % (self.r.choice('=!'), self.run_item(), self.r.choice(('', '', '*', '|' + self.run_item())))
        return '\\K'

    def run_behind(self):
        """A branch of a look-behind."""
        if self.chance(0.15):
            return self.r.choice(WORDS)
        part = ''.join(self.run_item() for _ in range(self.r.choice((1, 1, 1, 1, 2, 3))))
        return self.r.choice(ASSERTIONS) + part if self.chance(0.08) else part

    # ------------------------------------------------------------ texts

    def run_text(self, trees):
        """A haystack of runs."""
        out = []
        for _ in range(self.r.choice((1, 2, 2, 3, 4))):
            n = self.r.random()
            if n < 0.45 or not trees:
                out.append(self.run_literal() * self.r.choice((1, 2, 3, 5, 8, 13)))
            elif n < 0.6:
                out.append(''.join(self.char() for _ in range(self.r.randint(1, 8))))
            elif n < 0.67:
                out.append(self.r.choice(WORDS))
            else:
                out.append(self.sample(self.r.choice(trees), {})[:24])
        return ''.join(out)[:60].replace('\0', 'a')

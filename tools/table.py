"""The calls that tools/refused.py makes, with what they answer: rows that were worked out and written by hand.

A row is a call of crates/calls, letters of options (see `options_of` there), a pattern or for a set several ones, a text, a number, a
template, and the items of the answer. After them, for `split` and `splitn`, are the ends of the matches between the pieces.
"""

LIMIT = '!error executing regex: limit for backtracking exceeded'
BY_NAME = '!error compiling regex: groups are referred to by name alone here'
NAMES = r'(?P<first>\w+)\s+(?P<second>\w+)'
MIRRORS = 'mirror mirror on the wall'
NAMED = 'Springsteen, Bruce'


def x(text):
    """An item that is a text."""
    return 'x' + text.encode().hex()


def found(span):
    return [str(span != 'none').lower(), span]


def found_from(span):
    return [str(span != 'none').lower(), span, span, span, 'within true']


def built(groups, easy, pattern, times=1):
    return ['%d groups, easy %s, %s' % (groups, str(easy).lower(), x(pattern))] * times


def unmatched(place):
    return '!error executing regex: no token at position %d' % place


def expanded(text):
    return [x(text)] + [x('t' + text)] * 4


def searches():
    for options in ('-', 'S'):
        for pattern, text, span in (
                ('a|ab', 'xab', '1..2'), ('(a*)*', 'b', '0..0'), ('(a*)+', 'b', '0..0'), ('(?>a|ab)c', 'abc', 'none'),
                ('a++a', 'aaa', 'none'), ('a{2}+a', 'aaa', '0..3'), ('(?<=2)1(?=2)', '12112122', '5..6'),
                (r'(\w+) \1', MIRRORS, '0..13'), (r'r(#*)".*?"\1', 'r#"a"#', '0..6'), (r'(?=(a+))a*b\1', 'baaabac', '3..6'),
                ('(a)?(?(1)b|c)', 'ab', '0..2'), ('(a)?(?(1)b|c)', 'c', '0..1'), ('(a)?(?(1)b|c)', 'ac', '1..2'),
                ('(?<=é|ab)c', 'éc', '2..3'), ('(?i)k', '\u212a', '0..3'), ('(?i)[^k]', 'K', 'none'), ('(a){0}b', 'b', '0..1'),
                ('[a-z&&[^aeiou]]+', 'aebcd', '2..5'), ('[a-c--b]+', 'abc', '0..1'), ('a{,2}', 'aaa', '0..2'), ('a{x', 'a{x', '0..3'),
                ('(?:a|b)(?=c)', 'bc', '0..1')):
            yield 'find', options, pattern, text, 0, '', found(span)
        for pattern, text, start, span in (
                ('abc', 'zabc', 1, '1..4'), (r'\Gx', 'yx', 0, 'none'), (r'\Gx', 'yx', 1, '1..2'),
                (r'(?m:^)(\d+)', '1 test 123\n2 foo', 7, '11..12'), ('a', 'a', 2, 'none'), (r'(\w+) \1', MIRRORS, 0, '0..13'),
                ('(?:a|b|ab)*bc', 'ab' * 28 + 'ac', 0, 'none')):
            yield 'find_from', options, pattern, text, start, '', found_from(span)
        for letters, pattern, text, start, span in (
                (',F1,T3', 'a|ab', 'xabab', 0, '1..2'), ('A', 'abc', 'zabc', 1, '1..4'), ('Y', '(a)\\1', 'baa', 1, '1..3')):
            yield 'find_in', options + letters, pattern, text, start, '', ['true', span, span, 'within true']
    # more is saved on the way than the runner keeps, which goes on place by place
    yield 'captures', '-', '((a)|(b))*c', 'ab' * 10000 + 'c', 0, '', ['0..20001,19999..20000,19998..19999,19999..20000,'] * 3
    yield 'find', '-', '(?:a|b)*c', 'ab' * 10000 + 'd', 0, '', found('none')
    yield 'find', 'B0', '(?:a|b)(?=c)', 'bc', 0, '', [LIMIT] * 2
    yield 'find', 'E', 'a*', 'baa', 0, '', found('1..3')
    yield 'find', 'L', 'a|ab', 'abaa ab', 0, '', found('0..2')
    for pattern, text, groups in (
            (r'(\w+) \1', MIRRORS, '0..13,0..6,'), ('(a*)*', 'b', '0..0,none,'), ('(a*)+', 'b', '0..0,0..0,'),
            (r'r(#*)".*?"\1', 'r#"a"#', '0..6,1..2,'), (r'(?=(a+))a*b\1', 'baaabac', '3..6,3..4,'), (NAMES, 'deep fried', '0..10,0..4,5..10,'),
            ('(a){0}b', 'b', '0..1,none,')):
        yield 'captures', '-', pattern, text, 0, '', [groups] * 3
    yield 'captures', '-', r'(a)(?=\1)|(b)', 'baa', 1, '', ['0..1,none,0..1,', '1..2,1..2,none,', '1..2,1..2,none,']
    yield 'captures', '-', r'(a)\1', 'ab', 0, '', ['none'] * 3
    yield 'names', '-', NAMES, '', 0, '', ['none', x('first'), x('second')]
    yield 'names', '-', '(?<first>a)(b)', '', 0, '', ['none', x('first'), 'none']


def lists():
    for options, pattern, text, spans in (
            ('-', 'a*', 'aab', '0..2 3..3'), ('-', 'x*', 'é', '0..0 2..2'), ('-', r'\Gx*', 'ab', '0..0'), ('-', r'a\K', 'aa', '1..1'),
            ('-', '(?mR)^.*$', 'a\r\nb', '0..1 3..4'), ('L', 'a|ab', 'abaa ab', '0..2 2..3 3..4 5..7'), ('S', 'a?', 'ba', '0..0 1..2'),
            ('-', r'(1|2)\1', '12112122', '2..4 6..8')):
        yield 'matches', options, pattern, text, 0, '', spans.split()
    for pattern, text, groups in (
            ('(a)|b', 'ba', '0..1,none, 1..2,1..2,'), (r'(1|2)\1', '12112122', '2..4,2..3, 6..8,6..7,'),
            ('(?<=2)(1)(?=2)', '12112122', '5..6,5..6,')):
        yield 'capture_matches', '-', pattern, text, 0, '', groups.split()
    for pattern, text, pieces, ends in (
            ('', '123', ('', '1', '2', '3', ''), (0, 1, 2, 3)), (r'(1|2)\1', '12112122', ('12', '21', ''), (4, 8)),
            ('(?<=2)1(?=2)', '12112122', ('12112', '22'), (6,)), (',', '1,,2', ('1', '', '2'), (2, 3))):
        yield 'split', '-', pattern, text, 0, '', list(map(x, pieces)), ends
    spaced = 'a b \t  c\td    e'
    yield 'splitn', '-', '[ \t]+', spaced, 3, '', [x('a'), x('b'), x('c\td    e')], (2, 7)
    yield 'splitn', '-', '(?<=2)1(?=2)', '12112122', 2, '', [x('12112'), x('22')], (6,)


def texts():
    for pattern, text, limit, template, wanted in (
            ('aa', 'aaaa aaa aa a', 0, 'xx', ('xxxx xxa xx a', 'xxaa aaa aa a', 'xxxx xxa xx a', 'xxxx xxa xx a')),
            ('bla', 'blablabla', 2, 'foo', ('foofoobla', 'fooblabla', 'foofoobla', 'foofoofoo')),
            (NAMES, 'deep fried', 0, '${first}_$second', ('deep_fried', 'deep_fried', '${first}_$second', 'deep_fried')),
            (NAMES, 'deep fried', 0, '$1a', ('', '', '$1a', '')),
            (r'([^,\s]+),\s+(\S+)', NAMED, 0, '$2 $1', ('Bruce Springsteen', 'Bruce Springsteen', '$2 $1', 'Bruce Springsteen')),
            (r'([^,\s]+),\s+(\S+)', NAMED, 0, '$2 $last', ('Bruce ', 'Bruce ', '$2 $last', 'Bruce ')),
            (r'(\w+) \1', MIRRORS, 0, 'a $1', ('a mirror on the wall', 'a mirror on the wall', 'a $1 on the wall', 'a mirror on the wall')),
            ('x', 'abc', 0, '$0', ('abc', 'abc', 'abc', 'abc'))):
        yield 'replace', '-', pattern, text, limit, template, list(map(x, wanted))
    yield 'replace_by', '-', '(b)', 'abcb', 1, '', [x('a<b>cb'), x('a<b>c<b>')]
    yield 'replace_by', '-', r'(\w+) \1', MIRRORS, 0, '', [x('<mirror> on the wall')] * 2
    yield 'replace_by', '-', r'([^,\s]+),\s+(\S+)', NAMED, 0, '', [x('<Bruce>')] * 2
    yield 'check', '-', NAMES, '', 0, '$first', ['fits', 'fits']
    yield 'check', '-', NAMES, '', 0, '$1', [BY_NAME, 'fits']
    yield 'check', '-', NAMES, '', 0, 'a$', ['!parsing error at position 0: unmatched parenthesis, or an incomplete reference in a template', 'fits']
    yield 'check', '-', '(?<n>a)', '', 0, r'${m}\g<k>', ['!error compiling regex: no group has the name %s' % name for name in 'mk']
    yield 'expand', '-', NAMES, 'deep fried', 0, '${first}_$second', expanded('deep_fried')
    yield 'expand', '-', '(b)', 'abc', 0, '${1', expanded('${1')
    yield 'expand', '-', '(b)', 'abc', 0, '${1}-$0$$, and more than what was there', expanded('b-b$, and more than what was there')
    plain = x('t' + r'\1\g<0>\\x')
    yield 'expand', '-', '(b)', 'abc', 1, r'\1\g<0>\\x', [x('bb\\x'), x('tbb\\x'), plain, plain, x('tbb\\x')]
    for text, escaped in (('@foo', ('@foo', '@foo', '@foo')), ('fø*ø', (r'fø\*ø', 'fø*ø', 'fø*ø')),
                          ('Has a literal $ sign.', (r'Has a literal \$ sign\.', 'Has a literal $$ sign.', 'Has a literal $ sign.')),
                          ('a\\b', (r'a\\b', r'a\b', r'a\\b'))):
        yield 'escape', '-', '', text, 0, '', list(map(x, escaped))


def builds():
    for pattern, groups, easy in (('a|ab', 1, True), (r'(\w+) \1', 2, False), (NAMES, 3, True), ('(?i)[a-z&&[^k]]', 1, True),
                                  (r'(?:(?:a|b)*?(?<!x)\p{Greek})++', 1, False), ('(?<n>a){2,3}(?(<n>)b|c)', 2, False), ('fø*[^ø]|', 1, True)):
        yield 'build', '-', pattern, '', 0, '', built(groups, easy, pattern, 3)
    yield 'build', 'N', r'(a)(?<n>b)\1', '', 0, '', built(3, False, r'(a)(?<n>b)\1', 2) + [BY_NAME]
    yield 'build', 'E', '', '', 0, '', built(1, True, '', 2) + ['!error compiling regex: pattern that can never match']
    for pattern, refusal in (
            ('a{3}{2}', 'parsing error at position 4: nothing to repeat before the quantifier'),
            ('(a', 'parsing error at position 2: opening parenthesis without closing parenthesis'),
            (r'\k<n>', 'error compiling regex: no group has the name n'),
            (r'(a)\2', 'error compiling regex: no group has the number 2'), ('(?<=a+)b', 'error compiling regex: look-behind of no constant size')):
        yield 'build', '-', pattern, '', 0, '', ['!' + refusal] * 3
    yield 'build_again', '-', 'a|ab', r'(?<n>\d)\1', 0, '', built(1, True, 'a|ab') + built(2, False, r'(?<n>\d)\1')
    for pattern, first, required in (
            ('fn|let|impl', '3 bytes 66 69 6c', '0 bytes'), ('a?', 'none', '0 bytes'), ('a?b', '2 bytes 61 62', '1 bytes 62'),
            ('(?i)é', '1 bytes c3', '1 bytes c3')):
        yield 'bytes', '-', pattern, '', 0, '', [first, required]


def sets():
    numbers = (r'\d+', r'\w+', r'(?<=\$)\d+\.\d+')
    yield 'set', '-', numbers, '', 0, '', ['3 patterns'] * 2
    yield 'set', '-', ('a', '(?:b'), '', 0, '', ['!parsing error at position 4: opening parenthesis without closing parenthesis'] * 2
    yield 'in_set', '-', numbers, '$29.99', 0, '', ['at 1', '0 1..3', '1 1..3', '2 1..6']
    yield 'in_set', '-', ('(?<=foo)bar',), 'barfoobar', 0, '', ['at 6', '0 6..9']
    yield 'in_set', '-', (r'a\Kb', 'c', 'ab'), 'xab', 0, '', ['at 1', '0 2..3', '2 1..3']
    yield 'in_set', 'B0', ('a', r'(?:(a|aa)+)\1'), 'aa', 0, '', ['at 0', '0 0..1', LIMIT]
    yield 'in_set', '-', (r'\Gx',), 'yx', 1, '', ['at 1', '0 1..2']
    yield 'in_set', '-', ('c', r'(d)\1'), 'xab', 0, '', ['none']


def tokens():
    words = ('if', '[a-z]+', '[0-9]+', ' +')
    for patterns, text, found in (
            (words, 'if iffy 42', ['0 0..2', '3 2..3', '1 3..7', '3 7..8', '2 8..10', 'at 10']),
            (words, 'if!', ['0 0..2', unmatched(2), 'at 2']), (words, '', ['at 0']),
            (('a*',), 'aab', ['0 0..2', unmatched(2), 'at 2']), (('a|ab',), 'ab', ['0 0..1', unmatched(1), 'at 1']),
            ((r'a\Kb',), 'ab', [unmatched(0), 'at 0']), ((), 'a', [unmatched(0), 'at 0']),
            ((r'(\w)\1', '[a-z]', ' '), 'aab cc', ['0 0..2', '1 2..3', '2 3..4', '0 4..6', 'at 6']),
            (('a(?=b)', 'b+', '(?<=b)c'), 'abbc', ['0 0..1', '1 1..3', '2 3..4', 'at 4'])):
        yield 'tokens', '-', patterns, text, 0, '', found
    yield 'tokens', 'B0', ('y', '(?:x|y)(?=z)'), 'yz', 0, '', [LIMIT, 'at 0']
    yield 'tokens', 'B0', ('y', '(?:x|y)(?=z)'), 'yyyz', 0, '', [LIMIT, 'at 0']
    yield 'tokens', '-', words, '42if', 2, '', ['0 2..4', 'at 4']


def without_memory():
    """Calls that take no memory."""
    yield 'tell', '-', 'a|ab', 'xab', 0, 'b', [*built(1, True, 'a|ab'), 'false', 'false', x('xab'), '0', x('b')]
    yield 'tell', '-', r'(\w+) \1', MIRRORS, 0, '$1', [*built(2, False, r'(\w+) \1'), 'true', 'false', x(MIRRORS), '0', 'none']
    yield 'tell_set', '-', (r'\d+', r'(a)\1'), 'x12', 1, '', ['false', '2', '3', '1']
    yield 'tell_set', '-', (), 'x12', 2, '', ['true', '0', '3', '2']
    yield 'read', '-', '(?<n>a)(b)?', 'xab', 0, '', ['3 groups', '1..2', 'none', '1..3,1..2,2..3,', x('xab')]
    yield 'read', '-', r'(\w+) \1', MIRRORS, 0, '', ['2 groups', 'none', 'none', '0..13,0..6,', x(MIRRORS)]
    yield 'write', '-', NAMES, 'deep fried', 0, '${first}_$second', ['deep_fried']
    yield 'write', '-', '(b)', 'abc', 0, '${1', ['${1']
    yield 'splitn', '-', ',', '1,2', 1, '', [x('1,2')], ()
    yield 'splitn', '-', r'(1|2)\1', '12112122', 0, '', [], ()
    yield 'set_of_regexes', '-', (r'\d+', r'(a)\1'), '12', 0, '', ['2', 'false', 'true']


def with_memory():
    for rows in (searches, lists, texts, builds, sets, tokens):
        yield from rows()


# Words of `fre`, what it prints, and its status.
FRE = (
    (('find', 'a|ab', 'xab'), '1..2 a\n', 0), (('find', '(?>a|ab)c', 'abc'), '', 1),
    (('captures', r'(\w+) \1', MIRRORS), '0 0..13 mirror mirror\n1 0..6 mirror\n', 0),
    (('split', r'(1|2)\1', '12112122'), '12\n21\n\n', 0), (('split', ',', '1,,2'), '1\n\n2\n', 0),
    (('replace', NAMES, 'deep fried', '${first}_$second'), 'deep_fried\n', 0),
    (('replace', 'aa', 'aaaa aaa aa a', 'xx'), 'xxxx xxa xx a\n', 0),
    (('set', '$29.99', r'\d+', r'\w+', r'(?<=\$)\d+\.\d+'), '0 1..3 29\n1 1..3 29\n2 1..6 29.99\n', 0),
    (('tokens', 'if 4', 'if', '[a-z]+', '[0-9]+', ' +'), '0 0..2 if\n3 2..3  \n2 3..4 4\n', 0),
    (('tokens', 'aab', r'(a)\1', 'b'), '0 0..2 aa\n1 2..3 b\n', 0), (('tokens', 'if!', 'if'), '0 0..2 if\nunmatched 2\n', 1),
)

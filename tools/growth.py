"""How the time of builds and of searches, and their memory, grow with the size of a pattern or a text.

    python3 tools/growth.py [WORD]

Each row stands at three sizes. It prints the processor time of one build or search in seconds, and the most memory of the program in
MB, which is no less than what Python takes itself. With a word it makes only the rows that have it.
"""
import os
import subprocess
import sys

import asking

IDEOGRAPHS = [chr(number) for number in (*range(0x4E00, 0x9000), *range(0x20000, 0x2A000))]


def build(pattern):
    return [asking.CALLS], asking.line('build', '-', pattern, ''), 6


def find(options, pattern, text):
    return [asking.CALLS], asking.line('find', options, pattern, text), 4


def of_set(call, patterns, text):
    return [asking.CALLS], asking.line(call, '-', patterns, text), 2


def in_fre(*words):
    return [asking.FRE, *words], '', 1


def rows():
    """What a row is, its size, and the program with its line and how often that makes the call."""
    for size in (10000, 20000, 60000):
        yield 'a class of so many nested [x]', size, build('[' + '[x]' * size + ']')
        yield 'a class of so many nested classes of different characters', size, build('[' + ''.join('[%s]' % one for one in IDEOGRAPHS[:size]) + ']')
        yield '~~x so many times in a class', size, build('[a' + '~~x' * size + ']')
        yield '&&[^x] so many times after \\w', size, build('[\\w' + '&&[^x]' * size + ']')
    for size in (10000, 20000, 50000):
        groups = ''.join('(?<n%d>)' % number for number in range(size))
        yield 'so many names, and a \\k<..> to each', size, build(groups + ''.join('\\k<n%d>' % number for number in range(size)))
    for size in (125000, 250000, 500000):
        yield '\\w so many times in a class', size, build('[' + '\\w' * size + ']')
    for size in (25000, 50000, 100000):
        yield '\\w so many times', size, build('\\w' * size)
        yield 'a nested class of \\w so many times', size, build('[' + '[\\w]' * size + ']')
    for size in (25000, 50000, 100000):
        yield 'a class of 10,000 ranges so many times', size, build('[' + ''.join(IDEOGRAPHS[:20000:2]) + ']{%d}' % size)
    for size in (25000, 50000, 100000):
        yield 'the set of a*b in a', size, of_set('in_set', ['a*b'], 'a' * size)
        yield 'tokens of a*b and of a in a', size, of_set('tokens', ['a*b', 'a'], 'a' * size)
        yield 'tokens of \\s\\Zx and of \\s in line feeds', size, of_set('tokens', ['\\s\\Zx', '\\s'], '\n' * size)
    for size in (1000, 2000, 4000):
        yield 'find (?=x) in a', size, find('-', '(?=x)', 'a' * size)
        yield 'find (?=x) and 100,000 groups in a', size, find('-', '(?=x)' + '()' * 100000, 'a' * size)
    for size in (25000, 50000, 100000):
        yield 'find 5,000 groups and then (?:a|b)*c in ab and a c', size, find('-', '()' * 5000 + '(?:a|b)*c', 'ab' * (size // 2) + 'c')
    for size in (5001, 10001, 20001):
        yield 'find 1,000 branches (.). in a star, and a Z, in a', size, find('-', '(?:' + '|'.join(['(.).'] * 1000) + ')*Z', 'a' * size + 'Z')
    for size in (2500, 5000, 10000):
        groups = ''.join('(?<n%d>)' % number for number in range(size))
        yield 'a template of so many names', size, in_fre('replace', groups, 'x', ''.join('${n%d}' % number for number in range(size)))
    for size in (25000, 50000, 100000):
        yield 'find (?:ab)*+c in ab within 1,000,000 steps', size, find('-,W1000000', '(?:ab)*+c', 'ab' * (size // 2))
        for pattern in ('a*+b', '(?>a*)b', '\\w++@', '[^"]*+"', '(?<!a)a*+b', '(?>a+)+b', '[a-z]++\\d++x'):
            yield 'find %s in a' % pattern, size, find('-', pattern, 'a' * size)
        yield 'find [a-z]{1,3}[0-9]@ in a and an @', size, find('-', '[a-z]{1,3}[0-9]@', 'a' * size + '@')
        yield 'find [0-9]+[a-z]*@ in a, an @ and a blank', size, find('-', '[0-9]+[a-z]*@', 'a@ ' * (size // 3))
        yield 'find (?>a*)(?>b*)c in ab', size, find('-', '(?>a*)(?>b*)c', 'ab' * (size // 2))
        yield 'find \\s++$ in blanks before an x', size, find('-', '\\s++$', ' ' * size + 'x')
        yield 'find "[^"\\n]*+" in lines that each begin with a quote', size, find('-', '"[^"\\n]*+"', '"abc def\n' * (size // 9))
        yield 'find "[^"\\n]*+" in a line of a that begins with a quote', size, find('-', '"[^"\\n]*+"', '"' + 'a' * size + '\n"')
    for size in (4000, 8000, 16000):
        yield 'find (?:(?=(a)*+)a)* in a', size, in_fre('find', '(?:(?=(a)*+)a)*', 'a' * size)
    for size in (20000, 40000, 80000):
        yield 'the longest a* in a', size, find('L', 'a*', 'a' * size)
    for size in (200000, 400000, 800000):
        yield 'a branch saved at each a', size, find('-', '\\Aa*(?=b)', 'a' * size)


def cost(command, line):
    """The processor time in seconds and the most memory in MB of the program over a line."""
    program = subprocess.Popen(command, stdin=subprocess.PIPE, stdout=subprocess.DEVNULL, env={'PATH': os.defpath})
    program.stdin.write((line + '\n').encode())
    program.stdin.close()
    _, status, used = os.wait4(program.pid, 0)
    if status:
        raise SystemExit('the program ended with status %d' % status)
    return used.ru_utime + used.ru_stime, used.ru_maxrss / 1024


def main():
    for name, size, (command, line, times) in rows():
        if all(word in name for word in sys.argv[1:]):
            seconds, memory = cost(command, line)
            print('%s, %d: %.3f s, %.0f MB' % (name, size, seconds / times, memory), flush=True)


if __name__ == '__main__':
    main()

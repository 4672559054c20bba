"""Long and deep patterns with a small stack (`ulimit -s 512`), and the least stack that each needs.

    python3 tools/small_stack.py [--least]

Each row is asked of the program of crates/calls with 512 KiB of stack and must be answered right. With `--least` the least stack, in
steps of 4 KiB, is looked for.
"""
import os
import resource
import subprocess
import sys

import asking


def rows():
    """What a row is, the call, the pattern, the text, and the items of its answer."""
    for size in (1000, 10000, 100000, 1000000):
        yield '%d characters' % size, 'find', 'a' * size, 'a' * 100, ['false', 'none']
        yield '%d characters after a look-ahead' % size, 'find', '(?=a)' + 'a' * size, 'a' * 100, ['false', 'none']
    for size in (1000, 10000, 100000):
        words = ['%05d' % number for number in range(size)]
        yield '%d branches' % size, 'find', '|'.join(words), words[-1], ['true', '0..5']
        yield '%d branches after a look-ahead' % size, 'find', '(?=0|9)(?:' + '|'.join(words) + ')', words[-1], ['true', '0..5']
        yield '%d branches, cut' % size, 'split', '|'.join(words), 'x' + words[-1], ['x78', 'x']
    for depth in (16, 64, 128):
        yield '%d nested alternations' % depth, 'find', '(?:a|' * depth + 'b' + ')' * depth, 'b', ['true', '0..1']
        yield '%d nested groups of branches' % depth, 'find', '(a|' * depth + 'b' + ')' * depth, 'b', ['true', '0..1']
        yield '%d nested look-aheads' % depth, 'find', '(?=' * depth + 'b' + ')' * depth, 'ab', ['true', '1..1']
        yield '%d nested stars' % depth, 'find', '(?:' * depth + 'b' + ')*' * depth, 'bb', ['true', '0..2']
        yield '%d nested classes' % depth, 'find', '[' * depth + 'b' + ']' * depth, 'ab', ['true', '1..2']
    yield '128 groups round 128 classes', 'find', '(' * 128 + '[' * 128 + 'b' + ']' * 128 + ')' * 128, 'ab', ['true', '1..2']
    yield '128 look-behinds round 128 classes', 'find', '(?<=' * 128 + '[' * 128 + 'b' + ']' * 128 + ')' * 128, 'ab', ['true', '2..2']
    yield '129 nested alternations', 'build', '(?:a|' * 129 + 'b' + ')' * 129, '', None


def answer(line, kilobytes):
    """The program's status and line with so much stack."""
    def limit():
        resource.setrlimit(resource.RLIMIT_STACK, (kilobytes * 1024, kilobytes * 1024))
    done = subprocess.run([asking.CALLS], input=(line + '\n').encode(), capture_output=True, preexec_fn=limit, env={'PATH': os.defpath}, timeout=300)
    return done.returncode, done.stdout.decode()[:-1]


def is_right(wanted, status, got):
    if wanted is None:
        return status == 0 and 'nested too deep' in got
    return status == 0 and asking.halves(got) == (wanted, wanted)


def least(line, wanted):
    """The least stack, in KiB, with which the answer is right."""
    low, high = 0, 512
    while high - low > 4:
        middle = (low + high) // 8 * 4
        try:
            fits = is_right(wanted, *answer(line, middle))
        except (OSError, subprocess.SubprocessError):
            fits = False
        low, high = (low, middle) if fits else (middle, high)
    return high


def main():
    wrong = count = 0
    for name, call, pattern, text, wanted in rows():
        line = asking.line(call, '-', pattern, text)
        status, got = answer(line, 512)
        count += 1
        if not is_right(wanted, status, got):
            wrong += 1
            print('WRONG', name, status, got[-200:])
        elif '--least' in sys.argv:
            print('%s: %d KiB' % (name, least(line, wanted)), flush=True)
    print('%d rows with 512 KiB of stack, %d wrong' % (count, wrong))
    sys.exit(wrong > 0)


if __name__ == '__main__':
    main()

"""Lines for the program of crates/calls, and its answers."""
import os
import subprocess

HERE = os.path.dirname(os.path.abspath(__file__))
CALLS = os.environ.get('CALLS', os.path.join(HERE, '../crates/calls/out/calls'))
FRE = os.environ.get('FRE', os.path.join(HERE, '../crates/fre/out/fre'))


def parts(text):
    """The parts of a text, as bytes, and how many times each stands there. A text that has several parts is a tuple, in which a part that
    is repeated has a number after it."""
    out = []
    for one in text if isinstance(text, tuple) else (text,):
        if isinstance(one, int):
            out[-1][1] = one
        else:
            out.append([one if isinstance(one, bytes) else one.encode(), 1])
    return out


def data(text):
    """The bytes of a text."""
    return b''.join(part * count for part, count in parts(text))


def word(text):
    """A text as a line has it: its parts in hexadecimal with a `+` between them, and a `*` and a number after a part that is repeated."""
    return '+'.join(part.hex() + ('*%d' % count if count != 1 else '') for part, count in parts(text))


def line(call, options, pattern, text, number=0, template=''):
    """The line that asks for a call. A set has several patterns, as a list."""
    patterns = pattern if isinstance(pattern, list) else [pattern]
    return ' '.join((call, options, str(number), ','.join(map(word, (text, template, *patterns)))))


def texts(line):
    """The text, the template and the patterns of a line, of which none has several parts."""
    return [bytes.fromhex(one).decode() for one in line.split(' ')[3].split(',')]


def items(answer):
    """The items of an answer, or None where it is no row of items."""
    if answer and not answer.endswith('|'):
        return None
    return answer.split('|')[:-1]


def halves(answer):
    """The items of the first answer and of the second, or None where a line has not both."""
    _, began, rest = answer.partition('>')
    first, ended, second = rest.partition('<')
    if not began or not ended:
        return None
    return items(first), items(second)


def run(lines, environment=None, limit=600):
    """The status of the program, its lines, and its complaints."""
    text = ''.join(one + '\n' for one in lines).encode()
    done = subprocess.run([CALLS], input=text, capture_output=True, env=dict(os.environ, **(environment or {})), timeout=limit)
    return done.returncode, done.stdout.decode(errors='replace').split('\n')[:-1], done.stderr.decode(errors='replace')

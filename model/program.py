"""What the program `fre` prints, and its status."""
from dataclasses import dataclass

from dialect import Options, Refused
from meaning import Input, Limit, Regex, RegexSet
from templates import Expander

ARITY = {'find': (2, 2), 'captures': (2, 2), 'split': (2, 2), 'replace': (3, 3),
         'set': (1, None), 'tokens': (1, None)}


@dataclass(frozen=True)
class Run:
    """`errors`: the lines allowed on standard error, one of them; () for none."""
    status: int
    stdout: str
    errors: tuple = ()


def _error(names, stdout=''):
    return Run(2, stdout, tuple('error: ' + it for it in names))


def run(words, options=Options()):
    """`fre` with these words (after the program's name)."""
    if not words or words[0] not in ARITY:
        return _error(['usage'])
    command, rest = words[0], words[1:]
    least, most = ARITY[command]
    if len(rest) < least or (most is not None and len(rest) > most):
        return _error(['usage'])
    out = []
    try:
        if command in ('set', 'tokens'):
            text, patterns = rest[0], rest[1:]
        else:
            text, patterns = rest[1], rest[:1]
        regexes = [Regex(it, options) for it in patterns]
        status = globals()['_' + command](regexes, text, rest, out)
    except Refused as e:
        return _error(e.names)
    except Limit as e:
        return _error([e.kind], ''.join(out))
    return Run(status, ''.join(out))


def _line(out, span, text, before=''):
    data = text.encode()
    out.append(f'{before}{span[0]}..{span[1]} {data[span[0]:span[1]].decode()}\n')


def _find(regexes, text, _rest, out):
    m = regexes[0].search(Input.of(text))
    if m is None:
        return 1
    _line(out, m.span, text)
    return 0


def _captures(regexes, text, _rest, out):
    m = regexes[0].search(Input.of(text))
    if m is None:
        return 1
    for k, span in enumerate(m.groups):
        if span is None:
            out.append(f'{k} none\n')
        else:
            _line(out, span, text, f'{k} ')
    return 0


def _split(regexes, text, _rest, out):
    for piece in regexes[0].split(text):
        if isinstance(piece, Limit):
            raise piece
        out.append(piece + '\n')
    return 0


def _replace(regexes, text, rest, out):
    r, e = regexes[0], Expander()
    new = r.replacen(text, 0, lambda m: e.expansion(rest[2], r.pattern, m, text))
    out.append((text if new is None else new) + '\n')
    return 0


def _set(regexes, text, _rest, out):
    answer = RegexSet(regexes).find(Input.of(text))
    if answer is None:
        return 1
    for k, m in answer[1]:
        if isinstance(m, Limit):
            raise m
        _line(out, m.span, text, f'{k} ')
    return 0


def _tokens(regexes, text, _rest, out):
    for item in RegexSet(regexes).tokens(Input.of(text)):
        if isinstance(item, Limit):
            raise item
        if item[0] == 'Unmatched':
            out.append(f'unmatched {item[1]}\n')
            return 1
        _line(out, item[1].span, text, f'{item[0]} ')
    return 0

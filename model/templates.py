"""Templates, their check and their expansion, and both forms of `escape`."""
from dataclasses import dataclass

import properties

USIZE_MAX = 2 ** 64 - 1


@dataclass(frozen=True)
class Expander:
    """The syntax of templates."""
    mark: str = '$'
    open: str = '{'
    close: str = '}'
    bare_names: bool = True

    @staticmethod
    def python():
        """The Python syntax."""
        return Expander('\\', 'g<', '>', False)

    def steps(self, template):
        """Steps: ('char', c), ('name', n), ('number', n), ('error',)."""
        out, i = [], 0
        while i < len(template):
            c = template[i]
            i += 1
            if c != self.mark:
                out.append(('char', c))
                continue
            if template[i:i + 1] == self.mark:
                out.append(('char', c))
                i += 1
                continue
            if template.startswith(self.open, i):
                begin = i + len(self.open)
                end = self.name_end(template, begin)
                if end > begin and template.startswith(self.close, end):
                    out.append(('name', template[begin:end]))
                    i = end + len(self.close)
                    continue
            if self.bare_names:
                end = self.name_end(template, i)
                if end > i:
                    out.append(('name', template[i:end]))
                    i = end
                    continue
            end = i
            while end < len(template) and template[end] in '0123456789':
                end += 1
            if end > i and int(template[i:end]) <= USIZE_MAX:
                out.append(('number', int(template[i:end])))
                i = end
                continue
            out += [('error',), ('char', c)]
        return out

    @staticmethod
    def name_end(template, i):
        """The end of the longest run of name characters from i."""
        while i < len(template) and properties.is_name_char(template[i]):
            i += 1
        return i

    def expansion(self, template, pattern, match, hay):
        """The expansion for the groups of a match in a str."""
        data = hay.encode()

        def group(k):
            span = match.groups[k] if k is not None and k < len(match.groups) else None
            return None if span is None else data[span[0]:span[1]].decode()

        out = []
        for step in self.steps(template):
            if step[0] == 'char':
                out.append(step[1])
            elif step[0] == 'number':
                out.append(group(step[1]) or '')
            elif step[0] == 'name':
                text = group(pattern.named(step[1]))
                if text is None and decimal(step[1]) is not None:
                    text = group(decimal(step[1]))
                out.append(text or '')
        return ''.join(out)

    def check(self, template, pattern):
        """None, or the name of the first faulty step's refusal, with the place, the number or the name."""
        for step in self.steps(template):
            if step[0] == 'char':
                continue
            if step[0] == 'error':
                return 'GeneralParseError', 0
            n = step[1]
            if step[0] == 'name':
                if pattern.named(n) is not None:
                    continue
                if decimal(n) is None:
                    return 'InvalidGroupNameBackref', n
                n = decimal(n)
            if n == 0:
                continue
            if pattern.has_names:
                return 'NamedBackrefOnly', None
            if n >= pattern.groups:
                return 'InvalidBackref', n
        return None

    def escape(self, text):
        """Doubles each substitution character; None where it is borrowed."""
        return text.replace(self.mark, self.mark * 2) if self.mark in text else None


def decimal(name):
    """A name read as a decimal number that fits usize, or None."""
    if name.isascii() and name.isdigit() and int(name) <= USIZE_MAX:
        return int(name)
    return None


def escape(text):
    """A pattern for the text itself; None where that is the text."""
    if not any(c in r'\.+*?()|[]{}^$#' for c in text):
        return None
    out = []
    for c in text:
        if c in r'\.+*?()|[]{}^$#':
            out.append('\\' + c)
        else:
            out.append({'\n': '\\n', '\t': '\\t', '\r': '\\r'}.get(c, c))
    return ''.join(out)

"""How printed tables are laid out: as `rt fmt` lays them out, so that nothing is left to it."""
import sys

def wrapped(items, width=99):
    """Items side by side, in lines of at most so many characters."""
    lines = ['   ']
    for item in items:
        if len(lines[-1]) + 1 + len(item) > width:
            lines.append('   ')
        lines[-1] += ' ' + item
    return '\n'.join(lines)


def filled(element, items):
    """The type and the value of an array of short items, which stand side by side."""
    return f'[{element}; {len(items)}] = [\n{wrapped(item + "," for item in items)}\n]'


def listed(element, lines, count=None):
    """The type and the value of an array of so many items, a line each, or of these lines."""
    return f'[{element}; {count or len(lines)}] = [\n' + '\n'.join('    ' + line for line in lines) + '\n]'


def between(text, head, tail, printed):
    """The text with what stands between these two, the first head and the first tail behind it, printed anew."""
    before, found, rest = text.partition(head)
    _, ended, after = rest.partition(tail)
    if not (found and ended):
        sys.exit(f'tables.py: no {head.strip()} .. {tail.strip()} to print')
    return before + head + printed + tail + after

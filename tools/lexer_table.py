#!/usr/bin/env python3
"""Writes the table of short texts that enter, leave and end in every state of the lexer.

    lexer_table.py ORACLE > crates/hp_tests/src/cases.rt       the crate's own table
    lexer_table.py ORACLE --all > COPY/hp_tests/src/cases.rt   the whole table, for a copy of the crate

ORACLE is the folder of an independent lexer (`lexer.py`, `tables.py`) whose rows were written by hand. For each state the
shortest text that leads into it is found by breadth. In the crate's own table the text ends there; in the whole table it also
goes on with each code point that the state's row tells apart. Both have the texts that were chosen by hand. The places are
bytes of the text.

The whole table is too large for the proof of the tests: `rt try --test` in the copy compares it, whole and cut at each place.
"""
import sys

RESTS = [('Data', 1), ('Rcdata', 2), ('Rawtext', 3), ('Script', 4), ('Plaintext', 5), ('Escaped', 20), ('Double', 27), ('Cdata', 69)]
PARTS = ['a', 'script', ' ', '\t', '\n', '\0', '!', '"', '#', '&', "'", '-', '--', '/', '0', ';', '<', '=', '>', '?', ']', 'x', 'A',
         'DOCTYPE', 'PUBLIC', 'system', '[CDATA[', 'amp', 'not', '\u00e9']
BY_HAND = [('Data', False, t) for t in (
    'a\r\nb\r\rc\n', '<a b="x\r\ny">\r\n<c>', '<!--\r\n-->', '&notit;&notin;&amp', '<a b=&notit; c="&not=" d="&not;">', '<a b=">">c',
    '&#x41;&#65;&#0;&#128;&#xD800;&#1114112;', '<p a=1 A=2>', '<!---->a<!-->b<!--->c<!--a--!>d', '<!doctype html>',
    '<!DOCTYPE a PUBLIC "p" "s">', "<!DOCTYPE a SYSTEM 's'>", '<!DOC', '<!DOCTYP>', '<!DOCTYPE a PUBLI>', '<!-', '<![CDATA]>')] + [
    ('Script', False, t) for t in (
        '<!--<script>a</script>b--></script>c', '<!--<script></script></script>d', '</scr></script >e', 'a\r\n<!--\0-->')] + [
    ('Rcdata', False, t) for t in ('a&amp;b</titlx></script>c', '</script/>d', '&not', '</SCRIPT\r\n>e')] + [
    ('Data', True, t) for t in ('<![CDATA[a]]b]]]>c<d>', '<![CDATA[\0\r\n]]>')]


def spelled(text):
    return ''.join({'"': '\\"', '\\': '\\\\', '\n': '\\n', '\r': '\\r', '\t': '\\t', '\0': '\\0'}.get(
        c, c if ' ' <= c <= '~' else '\\u{%x}' % ord(c)) for c in text)


def normalised(text):
    """The code points with LF for each CR LF and CR, and the byte where each begins."""
    out, places, at, i = [], [], 0, 0
    while i < len(text):
        width = len(text[i].encode())
        places.append(at)
        if text[i] == '\r':
            out.append('\n')
            if text[i + 1:i + 2] == '\n':
                i, at = i + 1, at + 1
        else:
            out.append(text[i])
        i, at = i + 1, at + width
    return ''.join(out), places + [at]


class Sink:
    def __init__(self, places, foreign):
        self.places, self.is_foreign, self.told, self.run = places, foreign, [], False

    def end_run(self):
        if self.run:
            self.told.append(']')
            self.run = False

    def characters(self, text, began):
        if not self.run:
            self.told.append('[')
            self.run = True
        self.told.append(text)

    def token(self, token, began):
        self.end_run()
        place = '@%d' % self.places[began]
        if token.kind == 'S':
            attributes = ''.join(' %s=%s' % (a[1], a[2]) for a in token.attributes)
            self.told.append('<%s%s%s>%s' % (token.name, attributes, '/' if token.self_closing else '', place))
        elif token.kind == 'E':
            self.told.append('</%s>%s' % (token.name, place))
        elif token.kind == 'M':
            self.told.append('<!--%s-->%s' % (token.text, place))
        elif token.kind == 'D':
            parts = ['-' if p is None else '(%s)' % p for p in (token.name, token.public, token.system)]
            self.told.append('<!%s%s>%s' % (' '.join(parts), ' quirks' if token.quirks else '', place))
        else:
            self.told.append('$')
        return None

    def foreign(self):
        return self.is_foreign

    def ask_last_tag(self):
        return 'script'


def reaches(lexer, state, text):
    """The state behind the text."""
    plain, places = normalised(text)
    lx = lexer.Lexer(Sink(places, True), state=state, last_tag=None)
    lx.feed(plain)
    return lx.state


def whole(lexer, state, foreign, text):
    """The tokens, those of the end without their places."""
    plain, places = normalised(text)
    sink = Sink(places, foreign)
    lx = lexer.Lexer(sink, state=state, last_tag=None)
    lx.feed(plain)
    before = len(sink.told)
    lx.finish()
    sink.end_run()
    told = sink.told[:before] + [t.rsplit('@', 1)[0] if t.startswith('<') and '@' in t else t for t in sink.told[before:]]
    return ''.join(told)


def main():
    sys.path.insert(0, sys.argv[1])
    import lexer
    every = '--all' in sys.argv[2:]
    cases, seen, found = [], set(), set()

    def add(rest, foreign, text):
        if (rest, foreign, text) not in seen:
            seen.add((rest, foreign, text))
            cases.append((rest, foreign, text))

    for rest, state in RESTS:
        reached, queue = {state: ''}, [state]
        while queue:
            now = queue.pop(0)
            for part in PARTS:
                text = reached[now] + part
                to = reaches(lexer, state, text)
                if to not in reached and not (to in (1, 2, 3, 4, 5, 20, 69) and to != state):
                    reached[to] = text
                    queue.append(to)
        for to in sorted(reached):
            if rest != 'Data' and to in found and to not in (11, 14, 17, 25, 72):
                continue
            text = reached[to]
            add(rest, True, text)
            if '[CDATA[' in text:
                add(rest, False, text + 'y>')
            for part in PARTS if every else []:
                if differs(lexer, state, text, part):
                    add(rest, True, text + part + 'y>')
        found.update(reached)
    missing = set(range(1, 81)) - found
    print('states that no text ends in: %s' % sorted(missing), file=sys.stderr)
    for case in BY_HAND:
        add(*case)
    does = 'enter, leave and end in' if every else 'end in'
    print('// Short texts that %s every state, with the tokens that an independent lexer gives; written by' % does)
    print('// tools/lexer_table.py.')
    print('use hp_elements::Rest;\n')
    print('/// Texts that are begun in one state, with their tokens.')
    print('pub struct Texts {\n    pub rest: Rest,')
    print('    /// Whether there is an adjusted current node outside the HTML namespace.\n    pub foreign: bool,')
    print('    /// A text of no more than 1000 bytes, a bar and its tokens; behind them a tilde and the next ones.')
    print("    pub rows: &'static str,\n}\n")
    print('pub const CASES: &[Texts] = &[')
    numbers, groups = dict(RESTS), {}
    for rest, foreign, text in cases:
        told = whole(lexer, numbers[rest], foreign, text)
        assert not set('|~') & set(text + told), 'a separator stands in %r' % text
        row = '%s|%s' % (spelled(text), spelled(told))
        # A backslash at the end of a line takes away the blanks that the next one begins with.
        groups.setdefault((rest, foreign), []).append('\\x20' + row[1:] if row.startswith(' ') else row)
    for (rest, foreign), rows in groups.items():
        print('    Texts {\n        rest: Rest::%s,\n        foreign: %s,' % (rest, str(foreign).lower()))
        print('        rows: "\\\n%s",\n    },' % '~\\\n'.join(rows))
    print('];')
    print('%d cases' % len(cases), file=sys.stderr)


ROW_PARTS = {}


def differs(lexer, state, text, part):
    """Whether this part makes another token or state than the parts before it did behind this text."""
    told = (reaches(lexer, state, text + part), whole(lexer, state, True, text + part).replace(part, '\x01'))
    key = (state, text)
    if told in ROW_PARTS.setdefault(key, set()):
        return False
    ROW_PARTS[key].add(told)
    return True


if __name__ == '__main__':
    main()

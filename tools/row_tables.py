"""The tables of the rules crates, from their rows in specs/; `tools/tables.py rows` prints them.

A row's number is its place in `all_rows` of specs/Table.antt. src/numbers.rt has for each list of rows that
specs/Table.antt names the number of each kind of token (the order is that of `every_kind` in
hp_elements/specs/Placing.antt), src/acts.rt the acts of all rows, flat, with the places where a failed test goes on, and
where each row begins.
"""
import re

from definitions import CRATES, all_known, body, constant, known_names, read
from layout import between, filled, listed

NUMBERS_HEAD = """\
//! The number of the row of each kind of token, by the place of the kind: the start tags of the known
//! names and of other names, the end tags alike, the three classes of characters, comment, doctype, end of
//! input. `tools/row_tables.py` prints this file from specs/.
"""
TOKEN = re.compile(r'"[^"]*"|[A-Za-z_][\w.]*|⨾|⟶|∷|\+\+|\(|\)|\[\]')


def kinds():
    """Every kind of token: start or end and its name, None for other names; what has no name, as patterns write it."""
    texts = [name.text for name in known_names()] + [None]
    _, _, nameless = body(read(CRATES / 'hp_elements', 'Placing.antt'), 'every_kind').partition('End None ∷')
    others = [constant(kind.split()[-1]).lower() for kind in nameless.split(' ∷ ')[:-1]]
    return [(tag, text) for tag in ('start', 'end') for text in texts] + [(kind,) for kind in others]


def named_plans():
    """The plans that specs/Rules.antt names: their parameters and their words."""
    text = read(CRATES / 'hp_elements', 'Rules.antt')
    found = re.findall(r'^abbrev pub \w+ : (?:\w+ → )?Plan\n(\w+)(.*?) =(.*)', text, re.M)
    return {name: (parameters.split(), TOKEN.findall(plan)) for name, parameters, plan in found}


def argument_types():
    """The types of the arguments of each act, test and name of an element that has some."""
    text = (CRATES / 'hp_elements' / 'src' / 'act.rt').read_text()
    return {name: types.split(', ') for name, types in re.findall(r'^    (\w+)\((\w+(?:, \w+)*)\),', text, re.M)}


class Reader:
    """Reads rows from the words of a list."""

    def __init__(self, text, plans):
        self.words, self.plans, self.at = TOKEN.findall(text), plans, 0

    def peek(self):
        return self.words[self.at] if self.at < len(self.words) else None

    def next(self):
        self.at += 1
        return self.words[self.at - 1]

    def take(self, word):
        found = self.next()
        assert found == word, (found, self.words[self.at - 5:self.at + 5])

    def pattern(self):
        """The parts of a pattern, each with the names that it has."""
        out = []
        while True:
            word = self.next()
            out.append((word, self.next()[1:-1].split(' ')) if word in ('start', 'end', 'end_but') else (word,))
            if self.peek() != 'or':
                return out
            self.next()

    def term(self):
        """A constructor with its arguments in parentheses or bare."""
        if self.peek() != '(':
            return (self.next().split('.')[-1],)
        self.next()
        out = self.call()
        self.take(')')
        return out

    def call(self):
        out = [self.next().split('.')[-1]]
        while self.peek() not in ('⨾', ')', '∷', None):
            out.append(self.term())
        return tuple(out)

    def named_plan(self):
        """Puts what the plan of a name is in the place of the name and its arguments."""
        start = self.at
        parameters, plan = self.plans[self.next()]
        for parameter in parameters:
            first = self.at
            self.term()
            plan = [other for word in plan for other in (self.words[first:self.at] if word == parameter else [word])]
        self.words[start:self.at] = plan
        self.at = start

    def plan(self):
        """The acts of a plan; a test with the acts where it holds, or fails."""
        while self.peek() in self.plans:
            self.named_plan()
        if self.peek() == '(':
            self.next()
            out = self.plan()
            self.take(')')
            return out
        if self.peek() == 'ends':
            self.next()
            return []
        if self.peek() in ('when', 'unless'):
            word, test = self.next(), self.term()
            inner = self.plan()
            return [(word, test, inner)] + self.plan()
        act = self.call()
        self.take('⨾')
        return [act] + self.plan()

    def rows(self):
        out = []
        while self.peek() != '[]':
            pattern = self.pattern()
            self.take('⟶')
            out.append((pattern, self.plan()))
            self.take('∷')
        return out


def row_lists(crate):
    """The lists of rows of a crate that `all_rows` has, by name, in their order."""
    lists, sums, plans = {}, {}, named_plans()
    for path in sorted((crate / 'specs').glob('*.antt')):
        text = read(crate, path.name)
        for name in re.findall(r'^abbrev pub (\w+) : List Row$', text, re.M):
            if '⟶' in body(text, name):
                lists[name] = Reader(body(text, name), plans).rows()
            else:
                sums[name] = [word.split('.')[-1] for word in body(text, name).split() if word != '++']
    order = sums.pop('all_rows')
    lists.update((name, [row for part in parts for row in lists[part]]) for name, parts in sums.items())
    return {name: lists[name] for name in order}


def is_for(pattern, kind):
    """Whether a part of the pattern is for a token of that kind."""
    for word, *names in pattern:
        if word in ('any', 'any_' + kind[0]) or word == kind[0] and not names:
            return True
        if names and kind[0] == word.split('_')[0] and (kind[1] in names[0]) == (word != 'end_but'):
            return True
    return False


def first_for(rows, kind):
    """The number of the first row that is for a token of that kind."""
    return next(number for number, (pattern, _) in enumerate(rows) if is_for(pattern, kind))


def flat(plan, at=0):
    """The acts of a plan, each test with the later place where the row goes on where it fails."""
    out = []
    for act in plan:
        if act[0] in ('when', 'unless'):
            inner = flat(act[2], at + len(out) + 1)
            out += [('If' if act[0] == 'when' else 'Unless', act[1], at + len(out) + 1 + len(inner)), *inner]
        else:
            out.append(act)
    return out


def rust(term, kind, types):
    """A term of that type as the code writes it."""
    name, *arguments = term
    text = name if kind == 'Act' else f'{kind}::{constant(name) if kind == "Known" else name}'
    if not arguments:
        return text
    assert len(types[name]) == len(arguments), term
    return f'{text}({", ".join(rust(argument, of, types) for argument, of in zip(arguments, types[name]))})'


def act_lines(act, types):
    """The lines of an act in the code's table."""
    if act[0] in ('If', 'Unless'):
        return [f'{act[0]} {{', f'    test: {rust(act[1], "Test", types)},', f'    otherwise: {act[2]},', '},']
    return [rust(act, 'Act', types) + ',']


def numbers_text(lists):
    """The text of src/numbers.rt."""
    out, first, every = [NUMBERS_HEAD], 0, kinds()
    for name, rows in lists.items():
        numbers = [str(first + first_for(rows, kind)) for kind in every]
        out.append(f'pub(crate) static {name.upper()}: {filled("u8", numbers)};\n')
        first += len(rows)
    return '\n'.join(out)


def acts_text(lists, text):
    """The text of src/acts.rt, with its two tables printed anew."""
    lines, starts, types = [], [0], argument_types()
    for name, rows in lists.items():
        for place, (_, plan) in enumerate(rows):
            number, acts = len(starts) - 1, flat(plan)
            lines.append(f'// {number}' if place else f'// {name.replace("_", " ")}, from {number}')
            lines += [line for act in acts for line in act_lines(act, types)]
            starts.append(starts[-1] + len(acts))
    assert starts[-1] < 256, 'the places of the rows are bytes'
    text = between(text, 'static ACTS: ', ';\n\n', listed('Act', lines, starts[-1]))
    return between(text, 'static STARTS: ', ';\n\n', filled('u8', list(map(str, starts))))


def rules_crates():
    """The crates that have rows."""
    return sorted(path.parent.parent for path in CRATES.glob('hp_rules_*/specs/Table.antt'))


def row_files():
    """Each file with its text."""
    for crate in rules_crates():
        lists = row_lists(crate)
        parts = (part for rows in lists.values() for pattern, _ in rows for part in pattern)
        all_known(f'A row of {crate.name}', (name for part in parts for names in part[1:] for name in names))
        yield crate / 'src' / 'numbers.rt', numbers_text(lists)
        yield crate / 'src' / 'acts.rt', acts_text(lists, (crate / 'src' / 'acts.rt').read_text())

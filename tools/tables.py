#!/usr/bin/env python3
"""Prints the tables of the code from the definitions in specs/.

    tools/tables.py KIND..     prints the tables of these kinds into their files, and says which files have changed
    tools/tables.py --check    compares all of them with what stands, and says where a file differs first
                               (tools/check_repository calls it)

A kind is one of these, or `all`:

    names        what follows from `text_of` of hp_elements/specs/Names.antt, a line a known name, elements first: the
                 list of all and their places there, KnownNames.antt, the enums, constants and texts of the code, and the
                 numbers of names and of kinds of tokens wherever they stand (`NUMBERED` below has those files)
    sets         the sets that each name is in, from Sets.antt; a set's bit in SetMasks.antt is its place there
    slots        the table by which a name is found, and its weights
    respellings  the respellings that each name is in, and the foreign attributes, from Respelling.antt
    rows         the rows' acts and numbers in the crates of rules (row_tables.py)
    references   the reference names, from hp_names/specs/BuiltIn.antt, and the replaced values, from Numeric.antt

Two tables are found by a search, since more than one would do, and begin with what stands:

- The weights of `slot_of` (Slots.antt, and find.rt) stay while no two names have one slot. Where two have, those weights
  are tried that differ from these in one, then in two of the five, in the order of their numbers, and the first are taken
  that give each name a slot of its own. That may take a minute or two.
- `PLACES` of hp_names has, by what its search makes of the first two bytes, one of the names that begin so: the usual one
  in pages, which no definition says. It stays while it is in the table; where there is none, the first of the shortest is
  taken.

A file's other text stays as it is. Nothing rests on this tool: the check of each crate proves its tables equal to the
definitions.
"""
import itertools
import re
import sys

sys.dont_write_bytecode = True

import definitions as specs
from definitions import CRATES
from layout import between, filled, listed, wrapped
from row_tables import row_files

ELEMENTS, NAMES, TESTS = CRATES / 'hp_elements', CRATES / 'hp_names', CRATES / 'hp_base_tests' / 'src'
NO_SLOT = 255
# The files in which such numbers stand between other text: what each of their numbers of three digits and more is, in
# their order. N is how many known names there are, F the place of the first that a foreign attribute has.
NUMBERED = {
    ELEMENTS / 'specs' / 'Placing.antt': 'N N+1 2N+1 2N+2 2N+3 2N+4 2N+5 2N+6 2N+7',
    ELEMENTS / 'src' / 'places.rt': '2N+8 N+1 2N+2 2N+3 2N+4 2N+5 2N+6 2N+7 N+1 N+1 N',
    ELEMENTS / 'proofs' / 'EveryName.antt': 'N N N N N',
    ELEMENTS / 'proofs' / 'ListedNames.antt': 'N N N N N N',
    ELEMENTS / 'proofs' / 'PlaceLemmas.antt': 'N N+1 2N+1 N+1 N N',
    ELEMENTS / 'proofs' / 'RespellingLemmas.antt': 'F F F F F F F F F F F F',
    ELEMENTS / 'proofs' / 'places' / 'name_place' / 'Answers.antt': 'N+1',
    ELEMENTS / 'proofs' / 'name' / 'Name' / 'foreign_attribute' / 'Answers.antt': 'F F',
    TESTS / 'rows.rt': 'N N',
}


def table(text, name, printed):
    """The text with the type and the value of a static array printed anew."""
    return between(text, f'static {name}: ', ';\n', printed)


def enum_of(text, name, variants):
    """The text with the variants of an enum printed anew."""
    return between(text, f'pub enum {name} {{\n', '}\n', ''.join(f'    {variant},\n' for variant in variants))


def equations(text, function, lines):
    """The text with all equations of a definition printed anew."""
    found = re.search(rf'(?:^{function} .*\n?)+', text, re.M)
    return text[:found.start()] + ''.join(f'{function} {line}\n' for line in lines) + text[found.end():]


def variant_of(name):
    """A known name as specs/ write it."""
    return f'{name.kind} {name.kind.lower()}.{name.variant}'


def in_definitions(names):
    """The files of specs/ that have a line, a word or a definition for each known name."""
    path = ELEMENTS / 'specs' / 'Names.antt'
    places = [f'({variant_of(name)}) = {place}' for place, name in enumerate(names)]
    text = equations(path.read_text(), 'index_of', places)
    every = wrapped([f'k.{name.variant} ∷' for name in names] + ['[]'], 100)
    yield path, between(text, '\nevery =\n', '\n\n', every)
    path = ELEMENTS / 'specs' / 'KnownNames.antt'
    head = path.read_text().split('abbrev')[0]
    own = (f'abbrev pub {name.variant} : Known\n{name.variant} = {variant_of(name)}\n' for name in names)
    yield path, head + '\n'.join(own)


def in_code(names):
    """The files of src/ that have a line for each known name."""
    src = ELEMENTS / 'src'
    for kind in ('Element', 'Attribute'):
        path = src / f'{kind.lower()}_name.rt'
        yield path, enum_of(path.read_text(), f'{kind}Name', [name.variant for name in names if name.kind == kind])
    path = src / 'known' / 'names.rt'
    own = (f'    pub const {name.constant}: Known = Known::{name.kind}({name.kind}Name::{name.variant});\n' for name in names)
    yield path, between(path.read_text(), 'impl Known {\n', '}\n', '\n'.join(own))
    path = src / 'known.rt'
    text = table(path.read_text(), 'TEXTS', listed('&str', [f'"{name.text}",' for name in names]))
    text = table(text, 'EVERY', listed('Known', [f'Known::{name.constant},' for name in names]))
    first = sum(name.kind == 'Element' for name in names)
    yield path, between(text, 'Known::Attribute(name) => ', ' + name', str(first))


def first_foreign(names):
    """The place of the first name of a foreign attribute; they stand side by side."""
    foreign = [text for text, _, _ in specs.foreign_attributes()]
    places = [place for place, name in enumerate(names) if name.text in foreign]
    if places != list(range(places[0], places[0] + len(foreign))):
        sys.exit("tables.py: the names of foreign attributes don't stand side by side")
    return places[0]


def numbered(names):
    """The files in which the numbers of names or of kinds of tokens stand between other text."""
    count = len(names)
    numbers = {'N': count, 'N+1': count + 1, 'F': first_foreign(names)}
    numbers.update((f'2N+{more}', 2 * count + more) for more in range(1, 9))
    for path, meant in NUMBERED.items():
        parts = re.split(r'\b(?<!\d\.)\d{3,}\b(?!\.\d)', path.read_text())
        printed = [str(numbers[number]) for number in meant.split()]
        if len(parts) != len(printed) + 1:
            sys.exit(f"tables.py: {path_of(path)} has other numbers than NUMBERED says")
        yield path, ''.join(part + number for part, number in itertools.zip_longest(parts, printed, fillvalue=''))


def in_tests(names):
    """The tests' tables of rows, whose lines have a name's number and then, as a comment, the name."""
    places = {name.text: place for place, name in enumerate(names)}
    line = re.compile(r'^(    \(\d+, (?:true|false), )\d+(, \d+\), // )(.*)$', re.M)
    for path in sorted((TESTS / 'rows').glob('*.rt')):
        yield path, line.sub(lambda found: f'{found[1]}{places[found[3]]}{found[2]}{found[3]}', path.read_text())


def names():
    """Each file of this kind with its text, as of every kind."""
    known = specs.known_names()
    kinds = [name.kind for name in known]
    if kinds != sorted(kinds, reverse=True):
        sys.exit('tables.py: a name of an element stands behind one of an attribute')
    if len(known) > NO_SLOT:
        sys.exit(f'tables.py: there are {len(known)} names, and {NO_SLOT} have room')
    longest = int(re.search(r'const LONGEST: usize = (\d+)', (ELEMENTS / 'src' / 'find.rt').read_text()).group(1))
    if any(len(name.text) > longest for name in known):
        sys.exit(f'tables.py: a name has more than {longest} bytes, the most by find.rt and proofs/FindLemmas.antt')
    for files in (in_definitions, in_code, numbered, in_tests):
        yield from files(known)


def masks(namespace, bits, turned):
    """For each name the bits of the sets that its elements of that namespace are in."""
    for name in specs.known_names():
        element = namespace, name.text
        yield sum(bits[word] for word, listed in specs.listed_sets().items() if (element in listed) != (word in turned))


def sets():
    """The bits of the sets, and for each namespace the sets of each name."""
    bits = {name: 1 << place for place, name in enumerate(specs.listed_sets())}
    path = ELEMENTS / 'specs' / 'SetMasks.antt'
    yield path, equations(path.read_text(), 'mask_of', [f'set.{name} = {bit}' for name, bit in bits.items()])
    path = ELEMENTS / 'src' / 'set_masks.rt'
    text, digits = path.read_text(), (len(bits) + 3) // 4
    for namespace in specs.NAMESPACES:
        rows = [f'0x{mask:0{digits}x},' for mask in masks(namespace, bits, specs.turned_sets())]
        text = table(text, f'{namespace.upper()}_SETS', listed('u64', rows))
    yield path, text


def hashed_by(text):
    """What the weights of `slot_of` weigh: the length, and four bytes of the lowered text."""
    low = text.lower().encode()
    return len(low), low[0], low[len(low) // 2], low[max(len(low) - 2, 0)], low[-1]


def are_apart(keys, weights, slots):
    """Whether these weights give each key a slot of its own."""
    a, b, c, d, e = weights
    seen = set()
    for v, w, x, y, z in keys:
        slot = (a * v + b * w + c * x + d * y + e * z) % slots
        if slot in seen:
            return False
        seen.add(slot)
    return True


def near_weights(weights, slots):
    """The weights themselves, then those that differ in one, then those that differ in two."""
    yield weights
    for changed in (1, 2):
        for places in itertools.combinations(range(len(weights)), changed):
            for values in itertools.product(range(1, slots), repeat=changed):
                other = list(weights)
                for place, value in zip(places, values):
                    other[place] = value
                yield other


def weighed(text, weights):
    """The text, which has the weights alone as factors, with these weights in this order."""
    weights = iter(weights)
    return re.sub(r'\* \d+', lambda _: f'* {next(weights)}', text)


def slots():
    """The weights, and the place of the name of each slot."""
    known = specs.known_names()
    old, count = specs.hash_weights()
    keys = [hashed_by(name.text) for name in known]
    if len(set(keys)) < len(keys):
        sys.exit('tables.py: two names are alike in all that `slot_of` looks at')
    new = next(weights for weights in near_weights(old, count) if are_apart(keys, weights, count))
    path = ELEMENTS / 'specs' / 'Slots.antt'
    yield path, weighed(path.read_text(), new)
    path = ELEMENTS / 'src' / 'find.rt'
    yield path, weighed(path.read_text(), new[1:] + new[:1])
    places = [str(NO_SLOT)] * count
    for place, key in enumerate(keys):
        places[sum(weight * part for weight, part in zip(new, key)) % count] = str(place)
    path = ELEMENTS / 'src' / 'slots.rt'
    yield path, table(path.read_text(), 'SLOTS', filled('u8', places))


def respellings():
    """The respellings that each name is in, and the foreign attributes in the order of their names."""
    known = specs.known_names()
    rows = [str(sum(bit for bit, spellings in specs.respellings() if name.text in spellings)) for name in known]
    constants = {name.text: name.constant for name in known}
    foreign = sorted(specs.foreign_attributes(), key=lambda row: list(constants).index(row[0]))
    lines = [f'(AttributeSpace::{space}, Known::{constants[local]}),' for _, space, local in foreign]
    path = ELEMENTS / 'src' / 'respelling.rt'
    text = table(path.read_text(), 'RESPELLINGS', filled('u8', rows))
    text = between(text, 'const FIRST_FOREIGN: usize = ', ';', str(first_foreign(known)))
    yield path, table(text, 'FOREIGN', listed('(AttributeSpace, Known)', lines))


def character(code):
    """A code point as the table of names writes it."""
    return f"'{chr(code)}'" if 0x20 < code < 0x7F and chr(code) not in "'\\" else f"'\\u{{{code:x}}}'"


def usual_places(names, text):
    """For each pair of first bytes, as `usual_place` of search.rt counts them, the row of the usual name; where no name
    begins so, how many rows there are."""
    factor, count = map(int, re.search(r'\* (\d+) \+ .*% (\d+)', (NAMES / 'src' / 'search.rt').read_text()).groups())
    usual = {}
    for name in usual_names(text) + sorted((name for name in names if name.endswith(';')), key=len):
        if name in names:
            usual.setdefault((ord(name[0]) * factor + ord(name[1])) % count, names.index(name))
    return [str(usual.get(place, len(names))) for place in range(count)]


def usual_names(text):
    """The names that `PLACES` has in a text of the table."""
    run = re.search(r'b"\\\n(.*?)";', text, re.S).group(1).replace('\\\n', '')
    rows = [run[int(start):int(start) + int(length)] for start, length in re.findall(r'row!\((\d+), (\d+),', text)]
    places = re.findall(r'\d+', text.split('static PLACES: ')[1].split('= [')[1])
    return [rows[int(place)] for place in places if int(place) < len(rows)]


def reference_table(text):
    """The text of the table of reference names, with its three tables printed anew."""
    found = specs.references()
    names = [name for name, _ in found]
    run = ''.join(name for name in names if name.endswith(';'))
    starts = {name: (';' + run).index(';' + name) for name in names if name.endswith(';')}
    rows = [f'row!({starts[name.rstrip(";") + ";"]}, {len(name)}, {character(code)}),' for name, code in found]
    lines = ['', *(run[start:start + 110] for start in range(0, len(run), 110))]
    places = filled('u16', usual_places(names, text))
    text = between(text, 'static BYTES: ', '";\n', f'[u8; {len(run)}] = *b"' + '\\\n'.join(lines))
    text = table(text, 'ROWS', listed('Row', rows))
    text = between(text, '/// bytes begin with. ', ' stands where there is none.', str(len(names)))
    return table(text, 'PLACES', places)


def references():
    """The table of reference names, and what the values from 0x80 to 0x9F stand for."""
    path = NAMES / 'src' / 'table.rt'
    yield path, reference_table(path.read_text())
    path = NAMES / 'src' / 'values.rt'
    replaced = specs.replaced_values()
    controls = [f"'\\u{{{replaced.get(value, value):X}}}'" for value in range(0x80, 0xA0)]
    yield path, table(path.read_text(), 'CONTROLS', filled('char', controls))


KINDS = {'names': names, 'sets': sets, 'slots': slots, 'respellings': respellings, 'rows': row_files,
         'references': references}


def path_of(path):
    return path.relative_to(CRATES.parent)


def difference(path, text):
    """Where the file begins to differ from the text, as a line."""
    stands, wanted = path.read_text().splitlines(), text.splitlines()
    pairs = enumerate(itertools.zip_longest(stands, wanted, fillvalue='(nothing)'), 1)
    number, there, here = next((number, *pair) for number, pair in pairs if pair[0] != pair[1])
    return f'{path_of(path)}:{number} has `{there.strip()}`, and specs/ say `{here.strip()}`'


def main(words):
    chosen = list(KINDS) if words in (['all'], ['--check']) else words
    if not chosen or not set(chosen) <= set(KINDS):
        sys.exit(__doc__.strip())
    changed = [(path, text) for kind in chosen for path, text in KINDS[kind]() if path.read_text() != text]
    if words == ['--check']:
        sys.exit('\n'.join(difference(path, text) for path, text in changed) or 0)
    for path, text in changed:
        path.write_text(text)
        print(f'{path_of(path)} has changed')


if __name__ == '__main__':
    main(sys.argv[1:])

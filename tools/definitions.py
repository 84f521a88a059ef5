"""Reads definitions of specs/ for the tools that print tables from them: tables.py, row_tables.py, rule_table.py.

What is read is the text of a definition as it stands: a list of words, of references, of numbers. Nothing rests on this
reading: the check of each crate proves its tables equal to the definitions.
"""
import re
import sys
from collections import namedtuple
from functools import lru_cache
from pathlib import Path

CRATES = Path(__file__).resolve().parent.parent / 'crates'
NAMESPACES = ('html', 'mathml', 'svg')


class Name(namedtuple('Name', 'kind variant text')):
    """A known name: `Element` or `Attribute`, the name of its variant, its text."""

    @property
    def constant(self):
        return constant(self.variant)


def constant(name):
    """The constant of a name that specs/ write in camel case."""
    return re.sub(r'(?<=[a-z0-9])(?=[A-Z])', '_', name.rstrip('_')).upper()


def read(crate, file):
    """A file of a crate's specs/, without comments."""
    return re.sub(r'^ *--.*$', '', (crate / 'specs' / file).read_text(), flags=re.M)


def body(text, name):
    """What a definition of one equation without parameters is."""
    return re.search(rf'^{name} =((?:.|\n)*?)(?=^\S|\Z)', text, re.M).group(1)


def words(text):
    """The words of all lists in a text, `words "a b"` or `html "a b"`."""
    return [word for quoted in re.findall(r'"([^"]*)"', text) for word in quoted.split(' ')]


@lru_cache(None)
def known_names():
    """The known names, in the order of `text_of`."""
    line = r'^text_of \((\w+) \w+\.(\w+)\) = codes "([^"]*)"'
    return [Name(*found) for found in re.findall(line, read(CRATES / 'hp_elements', 'Names.antt'), re.M)]


def all_known(where, texts):
    """Ends the program where a file names what is no known name, which no table has a place for."""
    unknown = set(texts) - {name.text for name in known_names()}
    if unknown:
        sys.exit(f'{where} names what specs/Names.antt has no line for: {" ".join(sorted(unknown))}')


@lru_cache(None)
def listed_sets():
    """For each set, in their order, the elements of its list: pairs of a namespace and a known name."""
    text = read(CRATES / 'hp_elements', 'Sets.antt')

    def elements(expression):
        for part in expression.split('++'):
            head, _, names = part.strip().partition(' ')
            if head in NAMESPACES:
                yield from ((head, name) for name in words(names))
            else:
                yield from elements(body(text, head))

    sets = {name: set(elements(line)) for name, line in re.findall(r'^members set\.(\w+) = (.*)', text, re.M)}
    all_known('Sets.antt', (name for listed in sets.values() for _, name in listed))
    return sets


def turned_sets():
    """The sets that are all elements but their lists."""
    return re.findall(r'^turned set\.(\w+) listed = not listed', read(CRATES / 'hp_elements', 'Sets.antt'), re.M)


@lru_cache(None)
def sets_of_rows():
    """The sets that rows name."""
    texts = [path.read_text() for path in sorted(CRATES.glob('hp_rules_*/specs/*.antt'))]
    named = r'SetName\.TheVariants\.\{([^}]*)\}'
    return [name for text in texts for found in re.findall(named, text) for name in found.split(', ')]


def hash_weights():
    """The weights of `slot_of`, of the length and of the first, the middle, the last but one and the last byte; and how
    many slots there are."""
    formula = re.search(r'^slot_of len bytes =\s*(.*)', read(CRATES / 'hp_elements', 'Slots.antt'), re.M).group(1)
    *weights, slots = (int(number) for number in re.findall(r'[*%] (\d+)', formula))
    return weights, slots


def respellings():
    """Each table of respellings: its bit and its spellings."""
    text = read(CRATES / 'hp_elements', 'Respelling.antt')
    bits = dict(re.findall(r'^bit_of (\w+) = (\d+)', text, re.M))
    tables = [(int(bits[table]), words(line)) for table, line in re.findall(r'^spellings_of (\w+) = (.*)', text, re.M)]
    all_known('Respelling.antt', (spelling for _, spellings in tables for spelling in spellings))
    return tables


def foreign_attributes():
    """The attributes that have a namespace in foreign elements: the name in the page, the namespace, the local name."""
    text = body(read(CRATES / 'hp_elements', 'Respelling.antt'), 'foreign_attributes')
    return re.findall(r'\(codes "([^"]*)", (\w+), codes "([^"]*)"\)', text)


def references():
    """The built-in reference names, in the order of their bytes, each with its code point."""
    text = read(CRATES / 'hp_names', 'BuiltIn.antt')

    def of(expression):
        for name in expression.split(' ++ '):
            for code, listed in re.findall(r'counted (0x\w+) \(([^)]*)\)', body(text, name)):
                yield from ((word, int(code, 16) + place) for place, word in enumerate(words(listed)))
            yield from ((word, int(code, 16)) for word, code in re.findall(r'one "(\w+)" (0x\w+)', body(text, name)))

    lists = r'with_and_without \((.*?)\) \+\+ closed_alone \((.*?)\)'
    both, closed = (list(of(listed)) for listed in re.search(lists, body(text, 'built_in')).groups())
    return sorted(both + [(word + ';', code) for word, code in both + closed])


def replaced_values():
    """The values of numeric references that stand for another code point, each with that."""
    text = body(read(CRATES / 'hp_names', 'Numeric.antt'), 'replacements')
    return {int(value, 16): int(code, 16) for value, code in re.findall(r'\((0x\w+), (0x\w+)\)', text)}

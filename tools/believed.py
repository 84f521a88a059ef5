#!/usr/bin/env python3
"""Which definitions the contract of the top call means: what has to be believed beside the prover.

    tools/believed.py            prints their files, each with how many of its definitions are meant, and their lines
    tools/believed.py --names    prints the definitions too
    tools/believed.py --check    compares the files with the tables of docs/READING.md (tools/check_repository calls it)

It begins with the clauses of `hpar` (crates/hp_program/src/top.rt) and the types of its signature, and follows each name
to its definition, and the names in that to theirs. A file is in the list when one of its definitions is reached so; an
import that no such definition needs doesn't count. Nor do comments and blank lines count as lines.

- A definition of specs/ names each word of it that its file imports or defines.
- A type of src/ names the types of its fields, and what its ghost fields name. Where it has a model it stands for the
  model's `Value` alone, and names what that names; but the types of the top call's signature name their whole model.
  A trait names what its ghost members and its clauses name.
- Where a variable, or a case of an enum, has the name of a definition that its file knows, that is taken for named too:
  the list may be too long by it, and never too short.
- The toolchain's own library (std, and the kit's crates) isn't followed.
"""
import re
import sys
from functools import lru_cache
from pathlib import Path

CRATES = Path(__file__).resolve().parent.parent / 'crates'
READING = CRATES.parent / 'docs' / 'READING.md'
TOP_FILE, TOP_CALL = 'hp_program/src/top.rt', 'hpar'
# The part that is listed apart, by the definition that alone leads there.
APART, HEADING_APART = 'IsFair', '## Only for the fairness of a journal'
ITEM = re.compile(r'^(?:pub(?:\(\w+\))? )?(struct|enum|trait|type|const|static) (\w+)', re.M)


class Definition:
    """A definition of specs/, with its equations, or a type, trait or constant of src/."""

    def __init__(self, file, name, text):
        self.file, self.name, self.text = file, name, text

    def lines(self):
        return sum(1 for line in self.text.splitlines() if line.strip())


def without_comments(text, mark):
    """The text without comments, which run from the mark, outside of strings, to the end of the line."""
    return re.sub(r'("(?:[^"\\\n]|\\.)*"|\'"\')|' + mark + '.*', lambda found: found.group(1) or '', text)


def words_of(text):
    """The words of a text outside of strings; one with points in it is a name with what is taken of it."""
    return [word.rstrip('.') for word in re.findall(r'[^\s(){}\[\];,]+', re.sub(r'"(?:[^"\\]|\\.)*"', '', text))]


def spellings(name):
    """How a name stands in a text: an operator by its parts, like `if◌then◌else◌` by three words."""
    return [part for part in name.split('◌') if part]


def block_at(text, start):
    """The text from the start to the bracket that closes its first one, or to a `;` before any."""
    depth = 0
    for place in range(start, len(text)):
        depth += (text[place] in '({[') - (text[place] in ')}]')
        if depth == 0 and text[place] in '};':
            return text[start:place + 1]
    sys.exit(f'believed.py: no end of {text[start:start + 40]}')


class Scope:
    """What imports of definitions give: for each name its module, and its own name there unless it is a module's."""

    def __init__(self, lines):
        self.imports = {}
        for line in lines:
            listed = re.fullmatch(r'([\w.]+)\.\{(.*)\}\s*', line, re.S)
            module, _, alias = line.strip().partition(' as ')
            for item in listed.group(2).split(',') if listed else ():
                name, _, other = item.strip().partition(' as ')
                self.imports.update((word, (listed.group(1), name)) for word in spellings(other or name))
            if not listed:
                self.imports[alias or module.rsplit('.', 1)[-1]] = module, None

    def find(self, word):
        """The definition that a word names, the library's module that has it, or None where no import gives it."""
        first, _, rest = word.partition('.')
        module, name = self.imports.get(first, (None, None))
        name = name or rest.split('.')[0]
        if not module or not name or not module.startswith('Rattle.hp_'):
            return module if name else None
        _, crate, folder, *path = module.split('.')
        if folder != 'specs':
            sys.exit(f'believed.py: {name} of {module} is meant, and stands among proofs')
        if path[0] not in ('declared', 'contracts'):
            return spec_file(crate, *path).definitions.get(spellings(name)[0])
        path = [part for part in path if part not in ('TheVariants', 'TheInside')]
        return item_of(crate, name if path[-1] == 'TheConstants' else path[-1])


class SpecFile:
    """A file of specs/, with its definitions by their names, and by those of their cases."""

    def __init__(self, path):
        source = path.read_text()
        self.path, self.definitions = path, {}
        self.proves = bool(re.search(r'^use Rattle\.\w+\.proofs\.', source, re.M))
        text = without_comments(source, '--')
        self.scope = Scope(re.findall(r'^use (.*)', text, re.M))
        self.read(re.sub(r'^(use |infix|pub mod ).*', '', text, flags=re.M), '')

    def read(self, text, parameters):
        """A block begins at the margin: a signature, an equation of it, or a module with parameters and blocks."""
        for block in re.split(r'\n(?=[^\s})])', text):
            module = re.match(r'module _ (.*?) where\n(.*)', block, re.S)
            head = re.match(r'(abbrev |unfoldable |pub |record |data )+(\S+)|(\S+)(?= :\s)', block)
            if module:
                self.read(re.sub('^  ', '', module.group(2), flags=re.M), f'{parameters} {module.group(1)}')
            elif head:
                last = Definition(self, head.group(2) or head.group(3), f'{block} {parameters}')
                cases = re.findall(r'\n\s+(\S+) :', block) if 'data ' in head.group() else []
                self.definitions.update((word, last) for name in [last.name, *cases] for word in spellings(name))
            elif block.strip():
                last.text += '\n' + block

    def find(self, word):
        return self.definitions.get(word.split('.')[0]) or self.scope.find(word)

    def named_by(self, definition, whole=False):
        return [self.find(word) for word in words_of(definition.text)]


class RustFile:
    """A file of src/, with its types, traits and constants."""

    def __init__(self, path):
        self.path, self.crate, self.proves = path, path.relative_to(CRATES).parts[0], False
        self.text = re.sub(r'#!?\[[^\]]*\]', '', without_comments(path.read_text(), '//'))
        self.scope = Scope(re.findall(r'^ghost use ([^;]+);', self.text, re.M))
        self.uses = dict(use for tree in re.findall(r'^(?:pub )?use ([^;]+);', self.text, re.M) for use in uses_of(tree))
        self.definitions = {found.group(2): Definition(self, found.group(2), block_at(self.text, found.start()))
                            for found in ITEM.finditer(self.text)}

    def find(self, word):
        """What a word of a clause or of the code names, if it is a definition or comes from a crate."""
        first = re.split(r'\W', word)[0]
        if word.split('.')[0] in self.scope.imports:
            return self.scope.find(word)
        if first in self.definitions:
            return self.definitions[first]
        crate, name = self.uses.get(first, (None, None))
        return item_of(self.crate if crate in ('crate', 'super') else crate, name) if name and name[0].isupper() else None

    def named_by(self, definition, whole=False):
        """A type with a model names what its Value names, or all of the model, which sees its block's imports alone."""
        model = re.search(r'^impl(<[^{]*>)? Model for ' + definition.name + r'\b', self.text, re.M)
        if not model:
            return self.named_in(definition.text)
        block = block_at(self.text, model.start())
        scope = Scope(re.findall(r'ghost use ([^;]+);', block))
        members = [found.end() for found in re.finditer(r'ghost \w+ = ' if whole else 'ghost Value = ', block)]
        return [scope.find(word) for place in members for word in words_of(block_at(block, place))]

    def named_in(self, text):
        return [self.find(word) for word in words_of(re.sub(r'[&<>:?+\']', ' ', text)) + words_of(text)]

    def named_by_contract(self, function):
        """What the contract of a function names, and which of that its signature names."""
        start = self.text.index(f'pub fn {function}<')
        contract = self.text[start:self.text.index('\n{', start)]
        return self.named_in(contract), self.named_in(re.split(r'\n\s*(?:requires|ensures) ', contract)[0])


def uses_of(tree, before=()):
    """The names that a `use` of the code gives, each with its crate and its name there."""
    path, brace, inner = tree.strip().partition('{')
    parts = (*before, *(part for part in path.split('::') if part.strip()))
    if not brace:
        name, _, alias = parts[-1].strip().partition(' as ')
        return [(alias or name, (parts[0], name))]
    items = re.split(r',(?![^{]*\})', inner.rsplit('}', 1)[0])
    return [use for item in items if item.strip() for use in uses_of(item, parts)]


@lru_cache(None)
def spec_file(crate, *path):
    return SpecFile((CRATES / crate / 'specs').joinpath(*path).with_suffix('.antt'))


@lru_cache(None)
def rust_files(crate):
    return [RustFile(path) for path in sorted((CRATES / crate / 'src').rglob('*.rt')) if 'test' not in path.stem]


def item_of(crate, name):
    """The type, trait or constant of that name in a crate, or where the crate has it from; of the library its crate."""
    if not crate.startswith('hp_'):
        return crate
    own = [file.definitions[name] for file in rust_files(crate) if name in file.definitions]
    from_below = [file.find(name) for file in rust_files(crate) if file.path.stem in ('lib', 'main') and name in file.uses]
    if len(own) > 1 or not own and not from_below:
        sys.exit(f'believed.py: {crate} has {len(own)} types or constants {name}')
    return own[0] if own else from_below[0]


def meant(without=()):
    """The definitions that the contract of the top call means, but for what only those without lead to, and the modules
    of the library that they name."""
    top = next(file for file in rust_files('hp_program') if path_of(file) == TOP_FILE)
    waiting, signature = top.named_by_contract(TOP_CALL)
    found, library = {}, set()
    while waiting:
        definition = waiting.pop()
        if isinstance(definition, str):
            library.add(definition)
        elif definition and definition.name not in without and definition not in found:
            found[definition] = None
            waiting += definition.file.named_by(definition, definition in signature)
    return list(found), library


def path_of(file):
    return str(file.path.relative_to(CRATES))


def by_file(definitions):
    """The definitions of each file, in the order of the paths."""
    found = {}
    for definition in definitions:
        found.setdefault(path_of(definition.file), []).append(definition)
    return dict(sorted(found.items()))


def both_lists():
    """The files of the answer, and the others, which only the part that is listed apart means."""
    everything, library = meant()
    first = by_file(meant({APART})[0])
    return first, by_file(definition for definition in everything if path_of(definition.file) not in first), library


def mark_of(definitions):
    """What a file has beside these definitions of it: others, and proofs."""
    file = definitions[0].file
    has_others = isinstance(file, SpecFile) and len(set(file.definitions.values())) > len(definitions)
    return ', '.join(['part'] * has_others + ['proves too'] * file.proves)


def print_list(title, files):
    specs = [definition for found in files.values() for definition in found if isinstance(definition.file, SpecFile)]
    count = len({definition.file for definition in specs})
    print(f'{title}: {len(specs)} definitions in {sum(map(Definition.lines, specs))} lines of {count} files of specs/, '
          f'and types, traits and constants of {len(files) - count} files of src/')
    for path, found in files.items():
        print(f'{len(found):4} {sum(map(Definition.lines, found)):4}  {path}  {mark_of(found)}'.rstrip())
        if '--names' in sys.argv:
            print('           ' + ' '.join(sorted(definition.name for definition in found)))


def differences(files, text):
    """What the tables of a text say otherwise than the files, as lines. A row's last cell is the mark of its file."""
    rows = dict(re.findall(r'^\| \[([^]]*)\]\(\.\./crates/\1\) \|.*\| ?([^|]*?) ?\|$', text, re.M))
    for path in sorted(files.keys() | rows.keys()):
        wanted = mark_of(files[path]) if path in files else None
        if wanted != rows.get(path):
            marked = f'with the mark `{wanted}`' if wanted else 'without a mark'
            yield f'docs/READING.md: {path} ' + ("isn't meant here" if wanted is None else f'has to stand here {marked}')


def main():
    first, apart, library = both_lists()
    if '--check' in sys.argv:
        answer, _, rest = READING.read_text().partition('\n' + HEADING_APART)
        found = [*differences(first, answer), *differences(apart, rest)]
        sys.exit('\n'.join(found) or 0)
    print_list('The answer', first)
    print_list(HEADING_APART.strip('# '), apart)
    print('Of the library: ' + ' '.join(sorted(library)))


if __name__ == '__main__':
    main()

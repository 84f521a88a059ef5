#!/usr/bin/env python3
"""Makes the module of an unproved build (tools/unproved_build) what a proved one is about: takes out the checks of what a proof shows and
the filling of fresh memory, and writes the sources' hints on inlining back.

    tools/lower_module.py KIT MODULE LOWERED COUNTS [PATTERN..]

MODULE and LOWERED are modules of LLVM as text. COUNTS is written too, a file in C: it holds the sums of the functions that PATTERNs name, and
writes them when the program ends.
"""
import glob
import os
import re
import sys

ROOT = os.path.dirname(os.path.dirname(os.path.abspath(__file__)))
HINTS = {'always': 'alwaysinline', 'never': 'noinline', None: 'inlinehint'}
HINT = re.compile(r'#\[inline(?:\((always|never)\))?\]\s*(?:#\[[^\]]*\]\s*)*(?:pub(?:\([a-z]+\))?\s+)?(?:unsafe\s+)?(?:const\s+)?fn\s+(\w+)')
# What every function of an unproved build is marked with, and a proved one isn't.
MARKS = (' sanitize_address', '"frame-pointer"="all"', '"probe-stack"="inline-asm"', '"stack-probe-size"="3072"')
UTF8 = {'encoding': 'utf-8', 'errors': 'surrogateescape'}


def hints_of(folder):
    """The hints of a crate, by its name, the module and the function."""
    found, crate = {}, os.path.basename(folder)
    for file in glob.glob(f'{folder}/src/**/*.rt', recursive=True):
        module = os.path.relpath(file, f'{folder}/src')[:-3].replace('/', '::')
        module = '' if module in ('lib', 'main') else module.removesuffix('::mod')
        with open(file, encoding='utf-8') as text:
            for hint in HINT.finditer(text.read()):
                found[crate, module, hint[2]] = HINTS[hint[1]]
    return found


def name_of(line):
    """The name of the function that a line defines."""
    found = re.search(r'@"?([^"(]+)"?\(', line)
    return found[1] if found else ''


def hint_for(hints, name):
    """The hint on a function, whose name is the crate, the module, a type where there is one, and the function's own."""
    parts = re.sub(r'::<#[0-9a-f]+>', '', name).split('::')
    for end in range(len(parts) - 1, 0, -1):
        hint = hints.get((parts[0], '::'.join(parts[1:end]), parts[-1]))
        if hint:
            return hint
    return None


def lowered(line, hints):
    """A line of the module as it is written, or None where it is left out."""
    if line.startswith('  call void @') and ('i8 -86, i64' in line or '@"rattle-llvm-checks::' in line):
        return None
    if line.startswith('define'):
        hint = hint_for(hints, name_of(line))
        return line.replace(' {\n', f' {hint} {{\n') if hint else line
    if line.startswith('attributes #'):
        for mark in MARKS:
            line = line.replace(mark, '')
        return re.sub(r'\{ *\}', '{ nounwind }', line)
    return line


class Counter:
    """Writes what counts the cycles of the functions that a pattern names into the lines of a module."""

    def __init__(self, patterns):
        self.patterns, self.place, self.is_begun, self.returns = patterns, None, False, 0

    def lines(self, line):
        """What is written for a line."""
        if line.startswith('define'):
            name = name_of(line)
            self.place = next((at for at, it in enumerate(self.patterns) if re.search(it, name)), None)
            self.is_begun = False
        elif self.place is not None and not self.is_begun and not re.match(r'[\w.$"-]+:', line) and line.strip():
            self.is_begun = True
            yield '  %counted.begin = call i64 @llvm.readcyclecounter()\n'
        if self.place is not None and line.startswith('  ret '):
            self.returns += 1
            yield f'  %counted.end{self.returns} = call i64 @llvm.readcyclecounter()\n'
            yield f'  %counted.took{self.returns} = sub i64 %counted.end{self.returns}, %counted.begin\n'
            yield f'  %counted.sum{self.returns} = atomicrmw add ptr @counted_cycles_{self.place}, i64 %counted.took{self.returns} monotonic\n'
            yield f'  %counted.times{self.returns} = atomicrmw add ptr @counted_times_{self.place}, i64 1 monotonic\n'
        if re.search(r'call .*@_exit\(', line):
            yield '  call void @counted_report()\n'
        yield line

    def declarations(self):
        yield 'declare void @counted_report()\n'
        yield 'declare i64 @llvm.readcyclecounter()\n'
        for place in range(len(self.patterns)):
            yield f'@counted_cycles_{place} = external global i64\n@counted_times_{place} = external global i64\n'

    def source(self):
        """The file in C."""
        places = range(len(self.patterns))
        yield '#include <stdio.h>\n'
        yield from (f'long counted_cycles_{it}, counted_times_{it};\n' for it in places)
        yield 'void counted_report(void) {\n'
        yield from (f'    fprintf(stderr, "counted {it} %ld %ld\\n", counted_cycles_{it}, counted_times_{it});\n' for it in places)
        yield '}\n'


def main(kit, module, out, counts, *patterns):
    hints = {}
    for folder in sorted(glob.glob(f'{kit}/rattle/*') + glob.glob(f'{ROOT}/crates/*')):
        hints.update(hints_of(folder))
    counter = Counter(patterns)
    with open(module, **UTF8) as old, open(out, 'w', **UTF8) as new:
        for line in old:
            line = lowered(line, hints)
            if line is not None:
                new.writelines(counter.lines(line))
        new.writelines(counter.declarations())
    with open(counts, 'w', encoding='utf-8') as text:
        text.writelines(counter.source())


if __name__ == '__main__':
    if len(sys.argv) < 5:
        sys.exit(__doc__)
    main(*sys.argv[1:])

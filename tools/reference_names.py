#!/usr/bin/env python3
"""Prints the built-in reference names, as an independent reader of the standard's lists gives them.

    python3 tools/reference_names.py FOLDER            a line a name, `name first` in hexadecimal digits, in the order of bytes
    python3 tools/reference_names.py FOLDER --numeric  a line a value, `value code point`, for the values that stand for another

FOLDER has the module `tables` with the dictionaries BUILT_IN (name to text) and NUMERIC (value to code point).
`crates/hp_tests/src/names.rt` keeps these lines as its data, with commas between them.
"""
import sys


def rows(tables):
    for name in sorted(tables.BUILT_IN, key=lambda name: name.encode()):
        yield name, tables.BUILT_IN[name]


def main():
    sys.path.insert(0, sys.argv[1])
    import tables
    if '--numeric' in sys.argv:
        for value, to in sorted(tables.NUMERIC.items()):
            print('%x %x' % (value, to))
    else:
        for name, text in rows(tables):
            print(name, *('%x' % ord(c) for c in text))


main()

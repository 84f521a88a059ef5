#!/usr/bin/env python3
"""Prints the checksums of 1,000 generated pages, as an independent maker makes them.

    python3 tools/page_checksums.py FOLDER

FOLDER has the module `hpar_oracle` with `make_page(seed, size)`. Page i has the seed i * 0x9E3779B97F4A7C15 modulo 2^64 and the size i below
100, and else i * i * 7 modulo 5,000. A checksum is FNV-1a over the page's bytes, in 16 hexadecimal digits. The test of the page generator
keeps the list as its data.
"""
import sys


def checksum(page):
    value = 0xcbf29ce484222325
    for byte in page:
        value = (value ^ byte) * 0x100000001b3 % 2 ** 64
    return value


def main():
    sys.path.insert(0, sys.argv[1])
    from hpar_oracle import make_page
    for i in range(1000):
        size = i if i < 100 else i * i * 7 % 5000
        print('%016x' % checksum(make_page(i * 0x9E3779B97F4A7C15 % 2 ** 64, size)))


main()

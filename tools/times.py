#!/usr/bin/env python3
"""Times commands on pages, one after the other and over again, so that what else the machine does falls on all of them.

    tools/times.py [--runs N] COMMAND [COMMAND..] -- PAGE [PAGE..]

A COMMAND is one word of the shell and reads a page from its standard input, as './hpar --workers 4'. For each page and command: the least wall
time of N runs (7) in ms and the middle of their peak memory in MB, each with its ratio to that of the first command; last the geometric means of
these. Of a program that tools/unproved_build made with counters, for each counter the least milliseconds and how often, where the processor
counts its cycles at the rate of --cycles a millisecond (2,500,000).
"""
import argparse
import math
import os
import re
import shlex
import statistics
import subprocess
import sys
import time


def run(words, page):
    """The wall time in ms, the peak memory in MB and what the counters say of one run."""
    with open(page, 'rb') as text:
        begun = time.perf_counter()
        child = subprocess.Popen(words, stdin=text, stdout=subprocess.DEVNULL, stderr=subprocess.PIPE)
        said = child.stderr.read()
        _, status, used = os.wait4(child.pid, 0)
        took = (time.perf_counter() - begun) * 1000
    child.returncode = os.waitstatus_to_exitcode(status)
    if child.returncode:
        sys.exit(f'{shlex.join(words)} on {page}: status {child.returncode}: {said[:200]}')
    counted = {int(at): (int(cycles), int(times)) for at, cycles, times in re.findall(rb'^counted (\d+) (\d+) (\d+)$', said, re.M)}
    return took, used.ru_maxrss / 1024, counted


def main():
    words = sys.argv[1:]
    if '--' not in words:
        sys.exit(__doc__)
    split = len(words) - 1 - words[::-1].index('--')
    parser = argparse.ArgumentParser(usage=__doc__)
    parser.add_argument('--runs', type=int, default=7)
    parser.add_argument('--cycles', type=float, default=2.5e6)
    parser.add_argument('commands', nargs='+')
    given, pages = parser.parse_args(words[:split]), words[split + 1:]
    commands = [shlex.split(it) for it in given.commands]
    logs = [[0.0, 0.0] for _ in commands]
    for page in pages:
        runs = [[] for _ in commands]
        for _ in range(given.runs):
            for found, command in zip(runs, commands):
                found.append(run(command, page))
        wall = [min(it[0] for it in found) for found in runs]
        memory = [statistics.median(it[1] for it in found) for found in runs]
        cells = [f'{w:8.1f} ms ({w / wall[0]:.2f}) {m:6.0f} MB ({m / memory[0]:.2f})' for w, m in zip(wall, memory)]
        print(f'{os.path.basename(page)[:28]:28}', *cells, flush=True)
        for command, found in zip(given.commands, runs):
            counted = [it[2] for it in found]
            for at in sorted(counted[0]):
                least = min(it[at][0] for it in counted) / given.cycles
                print(f'    {command}: counter {at}: {least:.2f} ms, {counted[0][at][1]} times')
        for log, w, m in zip(logs, wall, memory):
            log[0] += math.log(w / wall[0])
            log[1] += math.log(m / memory[0])
    means = [f'{math.exp(w / len(pages)):.3f} of the time, {math.exp(m / len(pages)):.3f} of the memory' for w, m in logs]
    print('geometric means:', '; '.join(means))


if __name__ == '__main__':
    main()

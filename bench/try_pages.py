"""Tries `explain grid` on drawings with a few bytes changed: the status is that of `codex check`, and the page is that of
pages.py, which begins with the line of `check`. No line has more than 100 columns. Last come drawings of 262,144 bytes, and
what time both programs take for them.

    try_pages.py CODEX EXPLAIN [DRAWINGS [SEED]]
"""
import collections
import os
import random
import subprocess
import sys
import tempfile
import time

import pages
from try_faults import fault_case

def ran(program, *words, folder):
    return subprocess.run([program, *words], cwd=folder, stdin=subprocess.DEVNULL, capture_output=True)


def differs(text, checked, page):
    """What is wrong with a page, or nothing."""
    line = (checked.stdout or checked.stderr).decode('latin-1')
    if page.returncode != checked.returncode or page.stderr:
        return 'another status, or something on standard error'
    wanted = pages.page(line[:-1], text)
    assert max(map(len, wanted.split('\n'))) <= 100
    return None if page.stdout.decode('latin-1') == wanted else 'another page than\n' + wanted


def largest():
    """Drawings of 262,144 bytes: blank, with a fault in its last line; one frame that doesn't close; many rows."""
    yield b' ' * 4095 + b'\n', b'\x7f'
    yield b',' + b'.' * 4094 + b'\n', b':'
    yield b':\n', b'\x7f'


def main():
    count, seed = (list(map(int, sys.argv[3:])) + [2000, 1][len(sys.argv) - 3:])[:2]
    codex, explain = map(os.path.abspath, sys.argv[1:3])
    reached, wrong = collections.Counter(), 0
    with tempfile.TemporaryDirectory() as folder:
        path = os.path.join(folder, 'file')
        for number in range(count):
            text = fault_case(random.Random('%d faults %d' % (seed, number)), number)
            with open(path, 'wb') as file:
                file.write(text)
            checked, page = ran(codex, 'check', 'file', folder=folder), ran(explain, 'grid', 'file', folder=folder)
            line = (checked.stdout or checked.stderr).decode('latin-1')
            reached[line.split()[2] if checked.returncode else 'ok'] += 1
            what = differs(text, checked, page)
            if what:
                wrong += 1
                print('case %d of seed %d: %s\n%s' % (number, seed, what, page.stdout.decode('latin-1')))
        told = ', '.join('%s %d' % pair for pair in sorted(reached.items()))
        print('explain: %d drawings of seed %d, %d differ; %s' % (count, seed, wrong, told))
        for unit, last in largest():
            text = (unit * (262144 // len(unit) + 1))[:262144 - len(last)] + last
            with open(path, 'wb') as file:
                file.write(text)
            took = []
            for words in ((codex, 'check'), (explain, 'grid')):
                best = 1e9
                for _ in range(3):
                    start = time.perf_counter()
                    ran(*words, 'file', folder=folder)
                    best = min(best, time.perf_counter() - start)
                took.append(best)
            print('262,144 bytes: check %.3f s, explain %.3f s, %.2f times' % (*took, took[1] / took[0]))
    sys.exit(1 if wrong else 0)


if __name__ == '__main__':
    main()

"""Tries `codex draw` on random programs and on the drawings of examples/, and compares with layouts.py: `draw` writes the
one layout, `check` and `eval` say of it what they say of the file, and `draw` of it is the same bytes.

    try_drawings.py CODEX [PROGRAMS [SEED]]
"""
import collections
import glob
import os
import random
import re
import subprocess
import sys
import tempfile

import layouts
from grid import outcome, program, shown
from programs import changed, typed_program

HERE = os.path.dirname(os.path.abspath(__file__))
EVENTS = 300


def strip(name, texts):
    """A module of boxes side by side, each wired to the next, the last one to an exit."""
    edges = '  '.join('*' + '=' * len(text) + '*' for text in texts)
    dots = '.' * (1 + len(edges))
    return ',%s,\n:%s:\n: %s:\n: %s-\n: %s:\n\'%s\'\n' % (
        dots, name.ljust(len(dots)), edges, '->'.join('!' + text + '!' for text in texts), edges, dots)


def chain(count):
    return strip('main', ['send[((),E)]'] + ['send[(W,E)]'] * (count - 1)).encode()


def wide(leaves, marks):
    """One box whose command is in many rows: a pair of pairs with so many leaves, under so many `Inl`."""
    def tree(count):
        return '()' if count == 1 else ('pair', tree(count // 2), tree(count - count // 2))

    x = tree(leaves)
    for _ in range(marks):
        x = ('Inl', x)
    rows = ['']
    for token in re.findall(r'[A-Za-z]+|[^ ]', shown(('send', [(x, 'E')]))):
        if len(rows[-1]) > 60:
            rows.append('')
        rows[-1] += token + ' '
    edge, dots = '*' + '=' * 70 + '*', '.' * 74
    lines = [':' + ('!' + row.ljust(70) + '!').rjust(73).ljust(74) + (':' if k else '-') for k, row in enumerate(rows)]
    lines[0] = lines[0][:-2] + '--'
    return '\n'.join([',' + dots + ',', ':' + 'main'.ljust(74) + ':', ': ' + edge + ' :'] + lines
                     + [': ' + edge + ' :', "'" + dots + "'"]).encode() + b'\n'


class Trial:
    def __init__(self, codex, folder):
        self.codex, self.folder, self.wrong = codex, folder, 0
        self.reached = collections.Counter()

    def asked(self, *words):
        ran = subprocess.run([self.codex, *words], cwd=self.folder, stdin=subprocess.DEVNULL, capture_output=True)
        return ran.stdout, ran.stderr.decode('latin-1'), ran.returncode

    def put(self, name, data):
        with open(os.path.join(self.folder, name), 'wb') as file:
            file.write(data)

    def same(self, name, what, came, wanted, text):
        if came == wanted:
            return True
        self.wrong += 1
        print('%s: %s: %r, not %r' % (name, what, came, wanted))
        if self.wrong < 10:
            print(text.decode('latin-1')[:20000])
        return False

    def try_one(self, name, text, modules):
        """The file of this text, which is a drawing of these modules."""
        ok = b'ok %d %d\n' % (len(modules), sum(len(m.boxes) for m in modules)), '', 0
        found = outcome(modules, EVENTS)
        if found is None:
            means = b'', 'budget %d events\n' % EVENTS, 6
        else:
            means = found.encode(), '', 3 if found.startswith('stuck') else 0
        drawn, line = layouts.drawing(modules)
        self.put('file', text)
        self.same(name, 'check of the file', self.asked('check', 'file'), ok, text)
        self.same(name, 'eval of the file', self.asked('eval', 'file', 'first', str(EVENTS)), means, text)
        came = self.asked('draw', 'file')
        if drawn is None:
            self.reached[line.split()[2]] += 1
            self.same(name, 'draw', came, (b'', line, 1), text)
            return
        self.reached['stuck' if means[2] == 3 else 'endless' if means[2] else 'value'] += 1
        if not self.same(name, 'draw', came, (drawn, '', 0), text):
            return
        self.put('drawn', drawn)
        self.same(name, 'check of the drawing', self.asked('check', 'drawn'), ok, drawn)
        self.same(name, 'eval of the drawing', self.asked('eval', 'drawn', 'first', str(EVENTS)), means, drawn)
        self.same(name, 'draw of the drawing', self.asked('draw', 'drawn'), (drawn, '', 0), drawn)


def random_case(chance, number):
    """A program, and a drawing of it: each fourth has its wires go as they can, each tenth is drawn as `draw` does."""
    modules, _ = typed_program(chance)
    if chance.random() < 0.4:
        modules = changed(chance, modules)
    if number % 4 == 0 and sum(len(m.boxes) for m in modules) <= 12:
        return layouts.tangled(chance, modules)
    drawn = layouts.drawing(modules)[0] if number % 10 == 1 else None
    return modules, drawn or layouts.loose(chance, modules)


def edges():
    """Drawings that just fit, and that just do not."""
    fits = max(n for n in range(1, 250) if layouts.drawing(program(chain(n)))[0])
    return [('%d boxes' % n, chain(n)) for n in (1, 2, fits, fits + 1, 261)] + [
        ('%d leaves under %d marks' % size, wide(*size)) for size in ((813, 3), (814, 2), (820, 0))]


def main():
    count, seed = (list(map(int, sys.argv[2:])) + [2000, 1][len(sys.argv) - 2:])[:2]
    with tempfile.TemporaryDirectory() as folder:
        trial = Trial(os.path.abspath(sys.argv[1]), folder)
        for number in range(count):
            chance = random.Random('%d drawings %d' % (seed, number))
            modules, text = random_case(chance, number)
            if program(text) != modules:
                sys.exit('try_drawings.py: case %d is drawn as another program' % number)
            trial.try_one('case %d of seed %d' % (number, seed), text, modules)
        files = sorted(glob.glob(os.path.join(HERE, '..', 'examples', '*.grid')))
        texts = [(os.path.basename(file), open(file, 'rb').read()) for file in files]
        for name, text in texts + edges():
            trial.try_one(name, text, program(text))
    told = ', '.join('%s %d' % pair for pair in sorted(trial.reached.items()))
    print('draw: %d programs of seed %d, %d examples, %d differ; %s' % (count, seed, len(texts), trial.wrong, told))
    sys.exit(1 if trial.wrong else 0)


if __name__ == '__main__':
    main()

"""Tries `codex type` on random programs with sheets that fit and with changed ones, and compares with sheets.py.

    try_types.py CODEX [CASES [SEED]]
"""
import collections
import os
import random
import re
import subprocess
import sys
import tempfile

import layouts
import sheets
from grid import program
from programs import changed, typed_program

BROKEN = [lambda s: s + ' ', lambda s: ' ' + s, lambda s: s.replace(' ', '  ', 1), lambda s: s.replace(' ', '\t', 1),
          lambda s: s.upper(), lambda s: s + '\r', lambda s: s[:-1], lambda s: s.replace('type', 'types'),
          lambda s: s.replace(',', ', '), lambda s: s.replace('=', ' = '), lambda s: re.sub(r'(\d+)', r'0\1', s, count=1),
          lambda s: re.sub(r' \d+', ' 0', s, count=1), lambda s: re.sub(r' \d+', ' 4294967296', s, count=1),
          lambda s: s.replace(' e ', ' ', 1), lambda s: s.replace(' S ', ' N ').replace(' E ', ' W '),
          lambda s: s + 'a' * 32, lambda s: s.replace('[', '(').replace(']', ')'), lambda s: 'x',
          lambda s: s.replace('|', ','), lambda s: s + ' w u', lambda s: s.replace(' n ', ' w ', 1)]


def sheet_lines(random, modules, typing):
    """The lines of a sheet for the modules. What the typing doesn't tell of them is made up."""
    types = list(typing.forms)
    lines = []
    for name, form in typing.forms.items():
        body = '()' if not form else ('(%s,%s)' if form[0] == 'pair' else '[%s|%s]') % form[1:]
        lines.append('type %s = %s' % (name, body))
    for module in modules:
        north, west, result = typing.modules[module.name]
        entries = (' n ' + north if north else '') + (' w ' + west if west else '')
        lines.append('module %s%s e %s' % (module.name, entries, result))
        for b in range(len(module.boxes)):
            for side in 'SE':
                if sheets.needs_wire(module, b, side):
                    told = typing.wires.get((module.name, side, b)) or random.choice(types)
                    lines.append('wire %s %d %s %s' % (module.name, b + 1, side, told))
            if sheets.needs_of(module, b):
                told = typing.expressions.get((module.name, b)) or random.choice(types)
                lines.append('of %s %d %s' % (module.name, b + 1, told))
    if random.random() < 0.7:
        random.shuffle(lines)
    return lines


class Changes:
    """Changes of a sheet, one line at a time."""

    def __init__(self, random, modules, typing):
        self.random, self.modules = random, modules
        self.types, self.typing = list(typing.forms), typing

    def a_type(self):
        return self.random.choice(self.types * 4 + ['nope', 'other'])

    def a_line(self):
        """A line of any kind, which is seldom allowed."""
        name = self.random.choice([m.name for m in self.modules] * 3 + ['nowhere'])
        number, side = self.random.choice([1, 2, 3, 7, 4294967295]), self.random.choice('SE')
        return self.random.choice([
            'wire %s %d %s %s' % (name, number, side, self.a_type()), 'of %s %d %s' % (name, number, self.a_type()),
            'type %s = ()' % self.a_type(), 'type new = [%s|%s]' % (self.a_type(), self.a_type()),
            'module %s n %s e %s' % (name, self.a_type(), self.a_type()), 'module %s e %s' % (name, self.a_type())])

    def change(self, lines):
        random = self.random
        at = random.randrange(len(lines) + 1) if lines else 0
        kind = random.randrange(10)
        if not lines or kind == 0:
            lines.insert(at, self.a_line())
        elif kind == 1:
            lines.insert(at, random.choice(['', '', '\r', random.choice(lines)]))
        else:
            at = random.randrange(len(lines))
            self.change_line(lines, at, kind)

    def change_line(self, lines, at, kind):
        random, line = self.random, lines[at]
        words = line.split(' ')
        if kind in (2, 3):
            del lines[at]
        elif kind == 4:
            lines[at] = random.choice(BROKEN)(line)
        elif kind == 5 and words[0] == 'type':
            a, b = self.a_type(), self.a_type()
            lines[at] = ' '.join(words[:3]) + ' ' + random.choice(['()', '(%s,%s)' % (a, b), '[%s|%s]' % (a, b)])
        elif kind == 6:
            lines[at] = re.sub(r' \d+', lambda _: ' %d' % random.randint(1, 5), line, count=1)
        elif kind == 7:
            lines[at] = re.sub(r' [SE] ', ' %s ' % random.choice('SE'), line, count=1)
        elif words[0] != 'type':
            lines[at] = ' '.join(words[:-1] + [self.a_type()])
        else:
            parts = list(re.finditer(r'(?<=[\[(,|])\w+', line))
            if parts:
                part = random.choice(parts)
                lines[at] = line[:part.start()] + self.a_type() + line[part.end():]


def sheet_text(random, lines):
    end = '\r\n' if random.random() < 0.05 else '\n'
    text = ''.join(line + end for line in lines)
    return (text[:-len(end)] if random.random() < 0.1 else text).encode()


def sheet_case(random):
    """The modules of a program, and a sheet."""
    modules, typing = typed_program(random)
    if random.random() < 0.25:
        modules = changed(random, modules)
    lines = sheet_lines(random, modules, typing)
    changes = Changes(random, modules, typing)
    for _ in range(random.choice([0, 0, 1, 1, 1, 1, 2, 2, 3, 5])):
        changes.change(lines)
    if random.random() < 0.003:
        size = sum(len(line) + 1 for line in lines)
        lines = [''] * (sheets.MOST_BYTES - size + random.randint(0, 1)) + lines
        return modules, ''.join(line + '\n' for line in lines).encode()
    return modules, sheet_text(random, lines)


def asked(codex, words, folder):
    ran = subprocess.run([codex] + words, cwd=folder, stdin=subprocess.DEVNULL, capture_output=True)
    return ran.stdout.decode('latin-1'), ran.stderr.decode('latin-1'), ran.returncode


def main():
    codex = os.path.abspath(sys.argv[1])
    cases, seed = (list(map(int, sys.argv[2:])) + [2000, 1][len(sys.argv) - 2:])[:2]
    reached, wrong = collections.Counter(), 0
    with tempfile.TemporaryDirectory() as folder:
        for number in range(cases):
            chance = random.Random('%d types %d' % (seed, number))
            modules, sheet = sheet_case(chance)
            drawing = layouts.loose(chance, modules)
            if program(drawing) != modules:
                sys.exit('try_types.py: case %d is drawn as another program' % number)
            for name, text in (('grid', drawing), ('sheet', sheet)):
                with open(os.path.join(folder, name), 'wb') as file:
                    file.write(text)
            line, status = sheets.answer(modules, sheet)
            wanted = ('', line, 1) if status else (line, '', 0)
            came = asked(codex, ['type', 'grid', 'sheet'], folder)
            reached[' '.join(line.split()[:3]) if status else 'typed'] += 1
            if came != wanted:
                wrong += 1
                print('case %d of seed %d: %r, not %r\n%s%s' % (
                    number, seed, came, wanted, drawing.decode(), sheet[-4000:].decode('latin-1')))
    told = ', '.join('%s %d' % answer for answer in sorted(reached.items()))
    print('type: %d programs and sheets of seed %d, %d differ; %s' % (cases, seed, wrong, told))
    sys.exit(1 if wrong else 0)


if __name__ == '__main__':
    main()

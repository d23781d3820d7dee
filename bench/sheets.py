"""Sheets of declared types, as docs/TYPES.md says, and whether a program fits one. It shares nothing with the crates.

`answer(modules, sheet)` gives the line of `codex type` and its status.
"""
import re

from grid import kept_order, lines_of

MOST_BYTES, MOST_NUMBER = 262144, 2 ** 32 - 1
NAME = '([a-z][a-z0-9_]{0,31})'
NUMBER = '([1-9][0-9]*)'
FORMS = [(kind, re.compile(form.replace('NAME', NAME).replace('NUMBER', NUMBER).encode() + rb'\Z')) for kind, form in [
    ('unit', r'type NAME = \(\)'), ('pair', r'type NAME = \(NAME,NAME\)'), ('sum', r'type NAME = \[NAME\|NAME\]'),
    ('module', r'module NAME(?: n NAME)?(?: w NAME)? e NAME'),
    ('wire', r'wire NAME NUMBER ([SE]) NAME'), ('of', r'of NAME NUMBER NAME')]]


class Refused(Exception):
    """A fault: its number, its name and its place."""


def row_of(text):
    """A line's kind and words, or None where it has none of the forms."""
    for kind, form in FORMS:
        found = form.match(text)
        if found:
            words = [w and w.decode() for w in found.groups()]
            if kind in ('wire', 'of') and int(words[1]) > MOST_NUMBER:
                return None
            return kind, words
    return None


def subject(kind, words):
    if kind in ('unit', 'pair', 'sum'):
        return 'type', words[0]
    return {'module': (kind, words[0]), 'wire': (kind, *words[:3]), 'of': (kind, *words[:2])}[kind]


def used(kind, words):
    given = {'unit': [], 'pair': words[1:], 'sum': words[1:], 'module': words[1:], 'wire': words[3:], 'of': words[2:]}
    return [w for w in given[kind] if w is not None]


def read(text):
    """The rows of a sheet, each with the number of its line from 1."""
    if len(text) > MOST_BYTES:
        raise Refused(71, 'SheetTooLong', '')
    lines = [(number, line) for number, line in enumerate(lines_of(text), 1) if line]
    rows = []
    for number, line in lines:
        row = row_of(line)
        if row is None:
            raise Refused(72, 'BadSheet', number)
        rows.append((number, *row))
    seen = set()
    for number, kind, words in rows:
        if subject(kind, words) in seen:
            raise Refused(73, 'SameLine', number)
        seen.add(subject(kind, words))
    for number, kind, words in rows:
        if any(('type', name) not in seen for name in used(kind, words)):
            raise Refused(74, 'NoType', number)
    return rows


def wired_sides(module):
    """The sides of boxes from which wires start."""
    origins = [o for box in module.boxes for o in (box.n, box.w)] + module.exits
    return {o for o in origins if isinstance(o, tuple)}


def needs_wire(module, b, side):
    """Is a `wire` line needed, and so allowed, for this side of the box?"""
    if (side, b) not in wired_sides(module):
        return False
    command = module.boxes[b].command
    if command[0] == 'send':
        return True
    if command[0] == 'use':
        return side == 'S'
    return command[0] == 'case' and side not in command[2:]


def needs_of(module, b):
    command = module.boxes[b].command
    return command[0] in ('case', 'split') and command[1] not in ('N', 'W')


class Fitting:
    def __init__(self, modules, rows):
        self.modules = modules
        self.types, self.entries, self.wires, self.asked = {}, {}, {}, {}
        for _, kind, words in rows:
            if kind in ('unit', 'pair', 'sum'):
                self.types[words[0]] = (kind, *words[1:])
            elif kind == 'module':
                self.entries[words[0]] = words[1:]
            elif kind == 'wire':
                self.wires[words[0], int(words[1]) - 1, words[2]] = words[3]
            else:
                self.asked[words[0], int(words[1]) - 1] = words[2]
        self.rows = rows

    def look(self):
        for number, kind, words in self.rows:
            if not self.has_place(kind, words):
                raise Refused(75, 'NoPlace', number)
        for module in self.modules:
            self.look_for_lines(module)
        for module in self.modules:
            self.look_at_rules(module)

    def has_place(self, kind, words):
        if kind in ('unit', 'pair', 'sum'):
            return True
        found = [m for m in self.modules if m.name == words[0]]
        if not found:
            return False
        module = found[0]
        if kind == 'module':
            return (words[1] is not None, words[2] is not None) == (module.north, module.west)
        b = int(words[1]) - 1
        if b >= len(module.boxes):
            return False
        return needs_wire(module, b, words[2]) if kind == 'wire' else needs_of(module, b)

    def look_for_lines(self, module):
        if module.name not in self.entries:
            raise Refused(76, 'NoLine', module.name)
        for b in range(len(module.boxes)):
            missing = [s for s in 'SE' if needs_wire(module, b, s) and (module.name, b, s) not in self.wires]
            if missing or (needs_of(module, b) and (module.name, b) not in self.asked):
                raise Refused(76, 'NoLine', '%s %d' % (module.name, b + 1))

    def look_at_rules(self, module):
        north, west, result = self.entries[module.name]
        carried = {'N': north, 'W': west}
        wired = wired_sides(module)
        for b in kept_order(module):
            sides = self.box_fits(module, b, carried, wired)
            if sides is None:
                raise Refused(77, 'Mismatch', '%s %d' % (module.name, b + 1))
            for side in 'SE':
                declared = self.wires.get((module.name, b, side))
                carried[side, b] = declared if declared is not None else sides.get(side)
        for j, origin in enumerate(module.exits):
            if origin is not None and carried[origin] != result:
                raise Refused(77, 'Mismatch', '%s exit %d' % (module.name, j + 1))

    def box_fits(self, module, b, carried, wired):
        """What the sides of a box carry that no line tells, or None where a rule of it fails."""
        box = module.boxes[b]
        command = box.command
        inputs = {'N': carried.get(box.n), 'W': carried.get(box.w)}
        if command[0] == 'send':
            fits = all(self.has(x, self.wires[module.name, b, side], inputs)
                       for x, side in command[1] if (side, b) in wired)
            return {} if fits else None
        if command[0] == 'use':
            north, west, result = self.entries[command[1]]
            fits = (box.n is None or inputs['N'] == north) and (box.w is None or inputs['W'] == west)
            return {'E': result} if fits else None
        name = self.asked[module.name, b] if needs_of(module, b) else inputs[command[1]]
        form = self.types[name]
        if form[0] != ('sum' if command[0] == 'case' else 'pair') or not self.has(command[1], name, inputs):
            return None
        if command[0] == 'split':
            return {'S': form[1], 'E': form[2]}
        first, second = command[2:]
        if first == second:
            return None if (first, b) in wired and form[1] != form[2] else {first: form[1]}
        return {first: form[1], second: form[2]}

    def has(self, x, name, inputs):
        """Has the expression this type, where the inputs carry these?"""
        if x in ('N', 'W'):
            return inputs[x] == name
        form = self.types[name]
        if x == '()':
            return form[0] == 'unit'
        if x[0] == 'pair':
            return form[0] == 'pair' and self.has(x[1], form[1], inputs) and self.has(x[2], form[2], inputs)
        return form[0] == 'sum' and self.has(x[1], form[1 if x[0] == 'Inl' else 2], inputs)


def answer(modules, sheet):
    try:
        rows = read(sheet)
        fitting = Fitting(modules, rows)
        fitting.look()
    except Refused as fault:
        return ('refused %d %s %s' % fault.args).rstrip(' ') + '\n', 1
    return 'typed %d modules, %d types\n' % (len(modules), len(fitting.types)), 0

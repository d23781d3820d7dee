"""Reads drawings as docs/GRID.md says, and means them. It shares nothing with the crates.

`program(text)` gives the modules of a drawing, or raises NoProgram. `outcome(modules, events)` gives the text of what
they mean. `shown(command)` is the canonical text of a command, and `kept_order(module)` the kept order of a module.

An expression is '()', 'N', 'W', ('Inl', x), ('Inr', x) or ('pair', x, y). A command is ('send', [(x, side), ..]),
('case', x, side, side), ('split', x) or ('use', name). Where a wire comes from is 'N', 'W' or (side, box).
"""
import re
from collections import namedtuple

Box = namedtuple('Box', 'command n w')
Module = namedtuple('Module', 'name north west boxes exits')

MOST_BYTES, MOST_COLUMNS, MOST_LEVELS = 262144, 4096, 64
STEP = {'E': (0, 1), 'W': (0, -1), 'S': (1, 0), 'N': (-1, 0)}


class NoProgram(Exception):
    """A fault of the table: its number, and its row and column, but for those of a command."""


class Spent(Exception):
    """More events than there may be."""


# Commands

TOKEN = re.compile(r'[A-Za-z0-9_]+|"[^"]*"|[()\[\],]')
NAME = re.compile(r'[a-z][a-z0-9_]{0,31}\Z')


class Tokens:
    def __init__(self, text):
        self.rest, at = [], 0
        while at < len(text):
            if text[at] == ' ':
                at += 1
                continue
            found = TOKEN.match(text, at)
            if not found:
                raise NoProgram(10)
            self.rest.append(found.group())
            at = found.end()
        self.levels = 0

    def take(self, *allowed):
        if not self.rest or (allowed and self.rest[0] not in allowed):
            raise NoProgram(10)
        return self.rest.pop(0)

    def open(self):
        self.levels += 1
        if self.levels > MOST_LEVELS:
            raise NoProgram(24)

    def expression(self):
        token = self.take('(', 'Inl', 'Inr', 'N', 'W')
        if token in 'NW':
            return token
        self.open()
        if token != '(':
            found = (token, self.expression())
        elif self.rest[:1] == [')']:
            self.take()
            found = '()'
        else:
            found = self.expression()
            if self.take(',', ')') == ',':
                found = ('pair', found, self.expression())
                self.take(')')
        self.levels -= 1
        return found


def command(text):
    tokens = Tokens(text)
    word = tokens.take('send', 'case', 'split', 'use')
    if word == 'send':
        tokens.take('[')
        outs = []
        if tokens.rest[:1] != [']']:
            while True:
                tokens.take('(')
                sent = tokens.expression()
                tokens.take(',')
                side = tokens.take('S', 'E')
                tokens.take(')')
                if outs and (len(outs) == 2 or outs[0][1] == side):
                    raise NoProgram(10)
                outs.append((sent, side))
                if tokens.rest[:1] != [',']:
                    break
                tokens.take()
        tokens.take(']')
        found = ('send', outs)
    elif word == 'case':
        asked = tokens.expression()
        tokens.take('of')
        first = tokens.take('S', 'E')
        tokens.take(',')
        found = ('case', asked, first, tokens.take('S', 'E'))
    elif word == 'split':
        found = ('split', tokens.expression())
    else:
        name = tokens.take()
        if name[0] == '"':
            name = name[1:-1]
        if not NAME.match(name):
            raise NoProgram(10)
        found = ('use', name)
    if tokens.rest:
        raise NoProgram(10)
    return found


def shown_expression(x):
    if isinstance(x, str):
        return x
    if x[0] == 'pair':
        return '(%s,%s)' % (shown_expression(x[1]), shown_expression(x[2]))
    return '%s %s' % (x[0], shown_expression(x[1]))


def shown(command):
    if command[0] == 'send':
        return 'send [%s]' % ','.join('(%s,%s)' % (shown_expression(x), side) for x, side in command[1])
    if command[0] == 'case':
        return 'case %s of %s,%s' % (shown_expression(command[1]), command[2], command[3])
    if command[0] == 'split':
        return 'split ' + shown_expression(command[1])
    return 'use ' + command[1]


def expressions(command):
    if command[0] == 'send':
        return [x for x, _ in command[1]]
    return [] if command[0] == 'use' else [command[1]]


def names_input(x, side):
    return x == side if isinstance(x, str) else any(names_input(part, side) for part in x[1:])


# Cells and frames

def lines_of(text):
    """The lines of a text: each ended by LF, a CR right before it dropped; the last may lack its LF."""
    lines = text.split(b'\n')
    if lines[-1] == b'':
        lines.pop()
        return [line[:-1] if line.endswith(b'\r') else line for line in lines]
    return [line[:-1] if line.endswith(b'\r') else line for line in lines[:-1]] + lines[-1:]


class Cells:
    def __init__(self, text):
        if len(text) > MOST_BYTES:
            raise NoProgram(1)
        self.lines = [line.decode('latin-1') for line in lines_of(text)]
        for row, line in enumerate(self.lines, 1):
            bad = [col for col, mark in enumerate(line, 1) if not ' ' <= mark <= '~']
            if bad:
                raise NoProgram(2, row, bad[0])
        for row, line in enumerate(self.lines, 1):
            if len(line) > MOST_COLUMNS:
                raise NoProgram(3, row, MOST_COLUMNS + 1)

    def at(self, row, col):
        line = self.lines[row - 1] if 1 <= row <= len(self.lines) else ''
        return line[col - 1] if 1 <= col <= len(line) else ' '

    def run(self, row, col, way, over):
        """The first cell from this one on, in the given way, that is none of these."""
        while self.at(row, col) in over:
            row, col = row + STEP[way][0], col + STEP[way][1]
        return row, col


class Rectangle:
    def __init__(self, top, left, bottom, right):
        self.top, self.left, self.bottom, self.right = top, left, bottom, right

    def within(self, row, col):
        return self.top < row < self.bottom and self.left < col < self.right

    def has(self, row, col):
        return self.top <= row <= self.bottom and self.left <= col <= self.right

    def meets(self, other):
        return (self.top <= other.bottom and other.top <= self.bottom
                and self.left <= other.right and other.left <= self.right)


def live_corners(cells, rows, cols, corner, rectangle, faults):
    found = []
    for row in rows:
        for col in cols(row):
            if not corner(row, col) or any(other.within(row, col) for other in found):
                continue
            new = rectangle(row, col)
            if new is None:
                raise NoProgram(faults[0], row, col)
            if any(other.meets(new) for other in found):
                raise NoProgram(faults[1], row, col)
            found.append(new)
            if faults[2:]:
                look_at_entries(cells, new)
    return found


def frames(cells):
    def corner(row, col):
        return cells.at(row, col) == ',' and cells.at(row, col + 1) in '.|' and cells.at(row + 1, col) in ':-'

    def frame(row, col):
        right = cells.run(row, col + 1, 'E', '.|')[1]
        bottom = cells.run(row + 1, col, 'S', ':-')[0]
        if cells.at(row, right) != ',' or cells.at(bottom, col) != "'":
            return None
        if cells.run(bottom, col + 1, 'E', '.') != (bottom, right) or cells.at(bottom, right) != "'":
            return None
        if cells.run(row + 1, right, 'S', ':-') != (bottom, right):
            return None
        return Rectangle(row, col, bottom, right)

    rows = range(1, len(cells.lines) + 1)
    return live_corners(cells, rows, lambda row: range(1, len(cells.lines[row - 1]) + 1), corner, frame, (4, 5, 6))


def look_at_entries(cells, frame):
    top = [c for c in range(frame.left, frame.right) if cells.at(frame.top, c) == '|']
    left = [r for r in range(frame.top, frame.bottom) if cells.at(r, frame.left) == '-']
    if len(top) > 1:
        raise NoProgram(6, frame.top, top[1])
    if len(left) > 1:
        raise NoProgram(6, left[1], frame.left)
    frame.north = top[0] if top else None
    frame.west = left[0] if left else None
    frame.exits = [r for r in range(frame.top, frame.bottom) if cells.at(r, frame.right) == '-']


def boxes(cells, frame):
    def corner(row, col):
        return cells.at(row, col) == '*' and cells.at(row, col + 1) == '=' and cells.at(row + 1, col) == '!'

    def box(row, col):
        right = cells.run(row, col + 1, 'E', '=')[1]
        bottom = cells.run(row + 1, col, 'S', '!')[0]
        if cells.at(row, right) != '*' or cells.at(bottom, col) != '*':
            return None
        if cells.run(bottom, col + 1, 'E', '=') != (bottom, right) or cells.at(bottom, right) != '*':
            return None
        if any(cells.at(r, right) != '!' for r in range(row + 1, bottom)):
            return None
        if not frame.within(bottom, right):
            return None
        return Rectangle(row, col, bottom, right)

    rows, cols = range(frame.top + 1, frame.bottom), range(frame.left + 1, frame.right)
    return live_corners(cells, rows, lambda row: cols, corner, box, (8, 9))


# Wires

class Wires:
    """The wires of a module: where each target's wire comes from."""

    def __init__(self, cells, frame, name, boxes):
        self.cells, self.frame, self.name = cells, frame, name
        self.boxes = boxes
        self.targets, self.starts = {}, []
        self.used = set()
        self.of_boxes = {(r, c) for box in boxes for r in range(box.top, box.bottom + 1)
                         for c in range(box.left, box.right + 1)}
        for number, box in enumerate(boxes):
            self.look_at_ports(number, box)
        if frame.north is not None:
            self.starts.append(((frame.top, frame.north), 'S', 'N'))
        if frame.west is not None:
            self.starts.append(((frame.west, frame.left), 'E', 'W'))
        for number, row in enumerate(frame.exits):
            self.targets[row, frame.right] = ('exit', number)
        self.ends = {}
        for at, way, origin in sorted(self.starts):
            self.trace(at, way, origin)
        for row in range(frame.top + 1, frame.bottom):
            for col in range(frame.left + 1, frame.right):
                if not (self.cells.at(row, col) == ' ' or self.of_name(row, col) or (row, col) in self.of_boxes
                        or (row, col, 'h') in self.used or (row, col, 'v') in self.used):
                    raise NoProgram(15, row, col)

    def of_name(self, row, col):
        return row == self.frame.top + 1 and self.frame.left < col <= self.frame.left + self.name

    def inner(self, row, col):
        return self.frame.within(row, col)

    def look_at_ports(self, number, box):
        across, down = range(box.left + 1, box.right), range(box.top + 1, box.bottom)
        for side, mark, places in (('N', 'v', [(box.top - 1, c) for c in across]),
                                   ('W', '>', [(r, box.left - 1) for r in down]),
                                   ('E', '-', [(r, box.right + 1) for r in down]),
                                   ('S', '|', [(box.bottom + 1, c) for c in across])):
            ports = [p for p in places if self.cells.at(*p) == mark and not self.of_name(*p)
                     and (self.inner(*p) or side == 'E')]
            if len(ports) > 1:
                raise NoProgram(11, *sorted(ports)[1])
            for port in ports:
                if side in 'NW':
                    self.targets[port] = (side, number)
                else:
                    self.starts.append((port, side, (side, number)))

    def taken_at(self, row, col, way):
        """Can a wire that turns this way go on to this cell?"""
        cell, target = self.cells.at(row, col), self.targets.get((row, col))
        marks = '-#+' if way in 'EW' else '|#+'
        if self.inner(row, col) and cell in marks:
            return True
        if way == 'E':
            return target is not None and target[0] in ('W', 'exit')
        return way == 'S' and target is not None and target[0] == 'N'

    def occupy(self, row, col, way):
        axes = 'hv' if self.cells.at(row, col) == '+' else 'h' if way in 'EW' else 'v'
        return [(row, col, axis) for axis in axes]

    def trace(self, at, way, origin):
        row, col = at
        self.used.update(self.occupy(row, col, way))
        target = self.targets.get(at)
        if target is not None:                  # an E port in the right border
            self.ends[target] = origin
            return
        while True:
            row, col = row + STEP[way][0], col + STEP[way][1]
            cell, target = self.cells.at(row, col), self.targets.get((row, col))
            ends = target is not None and ((way == 'E' and target[0] in ('W', 'exit'))
                                           or (way == 'S' and target[0] == 'N'))
            straight = self.inner(row, col) and cell in ('-#' if way in 'EW' else '|#')
            turns = self.inner(row, col) and cell == '+'
            if not (ends or straight or turns):
                raise NoProgram(12, row, col)
            new = self.occupy(row, col, way)
            if self.used & set(new):
                raise NoProgram(14, row, col)
            self.used.update(new)
            if ends:
                self.ends[target] = origin
                return
            if turns:
                ways = [w for w in ('NS' if way in 'EW' else 'WE')
                        if self.taken_at(row + STEP[w][0], col + STEP[w][1], w)]
                if len(ways) != 1:
                    raise NoProgram(13, row, col)
                way = ways[0]


# Modules and programs

def module(cells, frame):
    """The module of a frame, and the corners of its boxes."""
    row, col = frame.top + 1, frame.left + 1
    end = col
    while re.match('[a-z0-9_]', cells.at(row, end)):
        end += 1
    name = cells.lines[row - 1][col - 1:end - 1] if end > col else ''
    if not NAME.match(name):
        raise NoProgram(7, row, col)
    found = boxes(cells, frame)
    commands = []
    for box in found:
        rows = range(box.top + 1, box.bottom)
        text = ' '.join(''.join(cells.at(r, c) for c in range(box.left + 1, box.right)) for r in rows)
        commands.append(command(text))
    ends = Wires(cells, frame, len(name), found).ends
    rows = [Box(c, ends.get(('N', k)), ends.get(('W', k))) for k, c in enumerate(commands)]
    exits = [ends.get(('exit', k)) for k in range(len(frame.exits))]
    corners = [(box.top, box.left) for box in found]
    return Module(name, frame.north is not None, frame.west is not None, rows, exits), corners


def sources(box):
    return [origin[1] for origin in (box.n, box.w) if isinstance(origin, tuple)]


def kept_order(module):
    """The boxes, each behind those whose wires come to it, the least list of all such; None where there is a cycle."""
    order, left = [], list(range(len(module.boxes)))
    while left:
        free = [b for b in left if not any(s in left for s in sources(module.boxes[b]))]
        if not free:
            return None
        order.append(free[0])
        left.remove(free[0])
    return order


def reaches_itself(module, box):
    seen, ahead = set(), [box]
    while ahead:
        for source in sources(module.boxes[ahead.pop()]):
            if source == box:
                return True
            if source not in seen:
                seen.add(source)
                ahead.append(source)
    return False


def look_at_program(modules, corners, box_corners):
    names = [m.name for m in modules]
    for number, name in enumerate(names):
        if name in names[:number]:
            raise NoProgram(16, *corners[number])
    if 'main' not in names:
        raise NoProgram(17)
    main = names.index('main')
    if modules[main].north or modules[main].west:
        raise NoProgram(18, *corners[main])
    by_name = dict(zip(names, modules))
    for m, places in zip(modules, box_corners):
        for box, place in zip(m.boxes, places):
            look_at_box(by_name, box, place)
    for m, places in zip(modules, box_corners):
        for number, place in enumerate(places):
            if reaches_itself(m, number):
                raise NoProgram(22, *place)


def look_at_box(by_name, box, place):
    if box.command[0] == 'use':
        used = by_name.get(box.command[1])
        if used is None:
            raise NoProgram(19, *place)
        if (used.north, used.west) != (box.n is not None, box.w is not None):
            raise NoProgram(20, *place)
    for x in expressions(box.command):
        if (names_input(x, 'N') and box.n is None) or (names_input(x, 'W') and box.w is None):
            raise NoProgram(21, *place)


def program(text):
    cells = Cells(text)
    found = frames(cells)
    read = [module(cells, frame) for frame in found]
    modules = [m for m, _ in read]
    look_at_program(modules, [(frame.top, frame.left) for frame in found], [corners for _, corners in read])
    return modules


# What a program means. A value is '()', ('Inl', v), ('Inr', v) or ('pair', v, w); an outcome is ('value', v) or
# ('stuck', line, callers).

def value_of(x, n, w):
    if isinstance(x, str):
        return {'N': n, 'W': w}.get(x, x)
    return (x[0],) + tuple(value_of(part, n, w) for part in x[1:])


class Meaning:
    def __init__(self, modules, events):
        self.modules = {m.name: m for m in modules}
        self.events = events
        self.made = self.firings = self.instances = 0

    def event(self):
        self.made += 1
        if self.made > self.events:
            raise Spent()

    def mean(self, name, north, west):
        module = self.modules[name]
        carried = {'N': north, 'W': west}
        self.instances += 1
        self.event()
        stuck = {}
        for b in kept_order(module):
            box = module.boxes[b]
            n, w = carried.get(box.n), carried.get(box.w)
            if (box.n is not None and n is None) or (box.w is not None and w is None):
                continue
            self.firings += 1
            self.event()
            sent = self.fire(name, b, box.command, n, w)
            if isinstance(sent, dict):
                for side, value in sent.items():
                    carried[side, b] = value
            else:
                stuck[b] = sent
        if stuck:
            return stuck[min(stuck)]
        given = [carried[origin] for origin in module.exits if carried.get(origin) is not None]
        if len(given) == 1:
            return ('value', given[0])
        return ('stuck', 'stuck: %s: %s' % (name, 'two results' if given else 'no result'), [])

    def fire(self, name, b, command, n, w):
        def wrong(what):
            return ('stuck', 'stuck: %s box %d: %s' % (name, b + 1, what), [])

        if command[0] == 'send':
            return {side: value_of(x, n, w) for x, side in command[1]}
        if command[0] == 'use':
            outcome = self.mean(command[1], n, w)
            if outcome[0] == 'value':
                return {'E': outcome[1]}
            return ('stuck', outcome[1], outcome[2] + ['  in %s box %d' % (name, b + 1)])
        value = value_of(command[1], n, w)
        if command[0] == 'case':
            if value[0] not in ('Inl', 'Inr'):
                return wrong('no sum')
            return {command[2] if value[0] == 'Inl' else command[3]: value[1]}
        if value[0] != 'pair':
            return wrong('no pair')
        return {'S': value[1], 'E': value[2]}


def outcome(modules, events):
    """The text of what the modules mean, or None where that takes more events."""
    meaning = Meaning(modules, events)
    try:
        found = meaning.mean('main', None, None)
    except Spent:
        return None
    if found[0] == 'value':
        return shown_expression(found[1]) + '\n'
    return '\n'.join([found[1]] + found[2]) + '\n'

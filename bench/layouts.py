"""Drawings of programs, as texts. It shares nothing with the crates.

`drawing(modules)` is in the one layout of docs/GRID.md, "Drawing"; `loose(random, modules)` is like it with all moved.
`tangled(random, modules)` strews the boxes, and the wires go as they can; it gives the program too, whose boxes have the
numbers that their places give.
"""
import heapq
import re

from grid import NoProgram, program, shown
from programs import renumbered


# The one layout

def wires_in(module):
    """Each wire from where it comes to where it ends, by what stands at its end: boxes N and W, then exits."""
    found = []
    for b, box in enumerate(module.boxes):
        found += [(box.n, ('N', b)), (box.w, ('W', b))]
    found += [(origin, ('exit', i)) for i, origin in enumerate(module.exits)]
    return [(origin, end) for origin, end in found if origin is not None]


class Sheet:
    """The cells of a module, by row and column of its interior from 1: borders at 0 and past the end."""

    def __init__(self, rows, cols):
        self.rows, self.cols, self.cells = rows, cols, {}
        self.passed = {}
        for c in range(1, cols + 1):
            self.cells[0, c] = self.cells[rows + 1, c] = '.'
        for r in range(1, rows + 1):
            self.cells[r, 0] = self.cells[r, cols + 1] = ':'
        self.cells[0, 0] = self.cells[0, cols + 1] = ','
        self.cells[rows + 1, 0] = self.cells[rows + 1, cols + 1] = "'"

    def write(self, row, col, text):
        for k, mark in enumerate(text):
            self.cells[row, col + k] = mark

    def path(self, corners):
        """A wire over these corners: `+` at each inner one, `#` where another passes."""
        for (r, c), (s, d) in zip(corners, corners[1:]):
            across = r == s
            for k in range(1, abs(r - s) + abs(c - d)):
                at = (r, c + (k if d > c else -k)) if across else (r + (k if s > r else -k), c)
                self.cells[at] = '#' if at in self.passed else '-' if across else '|'
                self.passed[at] = True
        for at in corners[1:-1]:
            self.cells[at] = '+'
            self.passed[at] = True

    def text(self):
        return ''.join(''.join(self.cells.get((r, c), ' ') for c in range(self.cols + 2)) + '\n'
                       for r in range(self.rows + 2))


class Places:
    """Where the boxes, exits and tracks of a module stand, in the one layout."""

    def __init__(self, module):
        self.commands = [shown(box.command) for box in module.boxes]
        count = len(self.commands)
        reach = max([len(module.name)] + [len(text) + 5 for text in self.commands])
        wires = len(wires_in(module))
        self.lefts = [4] * count
        self.tops = [3 + 8 * b for b in range(count)]
        self.exit_rows = [3 + 8 * count + i for i in range(len(module.exits))]
        self.tracks = [reach + 3 + 2 * j for j in range(wires)]
        self.cols, self.rows = reach + 2 + 2 * wires, 2 + 8 * count + len(module.exits)


class LoosePlaces(Places):
    """The same with boxes and exits between one another, moved, and the tracks in any order."""

    def __init__(self, random, module):
        super().__init__(module)
        self.lefts = [4 + random.randint(0, 9) for _ in self.commands]
        bands = [8] * len(self.commands) + [1] * len(module.exits)
        random.shuffle(bands)
        row, self.tops, self.exit_rows = 3, [], []
        for band in bands:
            row += random.choice([1, 1, 3])     # so that no turn of one box is under one of another
            (self.tops if band == 8 else self.exit_rows).append(row)
            row += band
        ends = [left + len(text) + 1 for left, text in zip(self.lefts, self.commands)]
        col = max([len(module.name)] + ends) + 1
        for j, _ in enumerate(self.tracks):
            col += random.choice([2, 2, 3, 5])
            self.tracks[j] = col
        random.shuffle(self.tracks)
        self.cols, self.rows = col + random.randint(1, 5), row


def module_drawing(module, places):
    sheet = Sheet(places.rows, places.cols)
    sheet.write(1, 1, module.name)
    for top, left, text in zip(places.tops, places.lefts, places.commands):
        sheet.write(top + 3, left, '*' + '=' * len(text) + '*')
        sheet.write(top + 4, left, '!' + text + '!')
        sheet.write(top + 5, left, '*' + '=' * len(text) + '*')
    for row in places.exit_rows:
        sheet.write(row, places.cols + 1, '-')
    for track, (origin, end) in zip(places.tracks, wires_in(module)):
        sheet.path(first_corners(sheet, places, origin, track) + last_corners(sheet, places, end, track))
    return sheet.text()


def first_corners(sheet, places, origin, track):
    """From where a wire starts to its track; what stands at the start is no cell between."""
    if origin == 'N':
        sheet.write(0, track, '|')
        return [(0, track)]
    if origin == 'W':
        sheet.write(2, 0, '-')
        return [(2, 0), (2, track)]
    top, left = places.tops[origin[1]], places.lefts[origin[1]]
    if origin[0] == 'E':
        return [(top + 4, left + len(places.commands[origin[1]]) + 1), (top + 4, track)]
    return [(top + 5, left + 1), (top + 7, left + 1), (top + 7, track)]


def last_corners(sheet, places, end, track):
    """From the track to where the wire ends."""
    if end[0] == 'exit':
        row = places.exit_rows[end[1]]
        return [(row, track), (row, places.cols + 1)]
    top, left = places.tops[end[1]], places.lefts[end[1]]
    if end[0] == 'W':
        sheet.write(top + 4, left - 1, '>')
        return [(top, track), (top, left - 2), (top + 4, left - 2), (top + 4, left - 1)]
    sheet.write(top + 2, left + 1, 'v')
    return [(top + 1, track), (top + 1, left + 1), (top + 2, left + 1)]


def drawing(modules):
    """The drawing in the one layout and nothing, or nothing and the line that says why there is none."""
    places = [Places(m) for m in modules]
    for number, place in enumerate(places):
        if place.cols + 2 > 4096:
            return None, 'refused 61 DrawTooWide %d\n' % (number + 1)
    size = sum((place.rows + 2) * (place.cols + 3) for place in places)
    if size > 262144:
        return None, 'refused 62 DrawTooLong %d\n' % size
    return ''.join(module_drawing(m, place) for m, place in zip(modules, places)).encode(), ''


def loose(random, modules):
    return ''.join(module_drawing(m, LoosePlaces(random, m)) for m in modules).encode()


# Tangled drawings

class Stuck(Exception):
    """A wire that finds no way."""


FREE, SHUT, EAST, SOUTH = range(4)


class Tangle:
    def __init__(self, random, module, room):
        self.random, self.room = random, room
        self.module = self.placed(module)
        self.route()

    def box_text(self, command):
        """The rows of a box: its command broken between tokens, with spaces strewn."""
        tokens = re.findall(r'[A-Za-z0-9_]+|[()\[\],]', shown(command))
        if command[0] == 'use' and self.random.random() < 0.3:
            tokens[1] = '"%s"' % tokens[1]
        rows = [tokens[0]]
        for before, token in zip(tokens, tokens[1:]):
            if self.random.random() < 0.1:
                rows.append(token)
                continue
            words = re.match(r'\w', before[-1]) and re.match(r'\w', token[0])
            space = ' ' * ((1 if words else 0) + (self.random.random() < 0.15))
            rows[-1] += space + token
        width = max(len(row) for row in rows) + (self.random.random() < 0.2)
        return [row.ljust(width) for row in rows]

    def placed(self, module):
        texts = [self.box_text(box.command) for box in module.boxes]
        room = self.room
        width = max([len(t[0]) + 2 for t in texts] + [len(module.name)]) + room
        width += self.random.randint(0, max(8, room))
        rects, row, at = [], 2 + room // 2, 0
        order = list(range(len(texts)))
        self.random.shuffle(order)
        while at < len(order):                # bands of boxes side by side
            col, low = 1 + self.random.randint(3, 3 + room // 2), row
            first = at
            while at < len(order):
                text = texts[order[at]]
                if at > first and col + len(text[0]) + 2 + 3 > width:
                    break
                down = row + self.random.randint(0, 2)
                rects.append((down, col, order[at]))
                low = max(low, down + len(text) + 2)
                col += len(text[0]) + 2 + self.random.randint(4, 4 + room // 2)
                at += 1
                if self.random.random() < 0.5:
                    break
            width = max(width, col)
            row = low + self.random.randint(4, 4 + room // 2)
        self.cols, self.rows = width + 4, max(row, 3, 2 * len(module.exits) + 2)
        rects.sort()
        places = [0] * len(texts)
        for number, (_, _, b) in enumerate(rects):
            places[b] = number
        self.rects = [(r, c, texts[b]) for r, c, b in rects]
        return renumbered(module, places)

    def route(self):
        self.sheet = Sheet(self.rows, self.cols)
        self.wide = self.cols + 2
        size = self.wide * (self.rows + 2)
        # of each cell: is it free, shut, or a wire's that goes one way; how many wire cells and turns are beside it
        self.state = [SHUT] * size
        for row in range(1, self.rows + 1):
            self.state[row * self.wide + 1:row * self.wide + self.wide - 1] = [FREE] * self.cols
        self.wires_beside, self.turns_beside = [0] * size, [0] * size
        self.steps = {'E': 1, 'S': self.wide, 'W': -1, 'N': -self.wide}
        self.ports = {}
        self.put(1, 1, self.module.name)
        for row, col, text in self.rects:
            edge = '*' + '=' * len(text[0]) + '*'
            for k, line in enumerate([edge] + ['!' + line + '!' for line in text] + [edge]):
                self.put(row + k, col, line)
        wires = wires_in(self.module)
        rows = self.random.sample(range(2, self.rows), len(self.module.exits))
        for i, row in enumerate(sorted(rows)):
            self.put_port(('exit', i), row, self.cols + 1, 'E', '-')
        if self.module.north:
            self.put_port('N', 0, self.random.randint(len(self.module.name) + 1, self.cols), 'S', '|')
        if self.module.west:
            self.put_port('W', self.random.randint(2, self.rows), 0, 'E', '-')
        for origin, end in wires:               # ports stand before the first wire is laid
            for port in (origin, end):
                if port not in self.ports:
                    self.put_box_port(port)
        self.random.shuffle(wires)
        for origin, end in wires:
            self.lay(self.ports[origin], self.ports[end])

    def put(self, row, col, text):
        self.sheet.write(row, col, text)
        for k in range(len(text)):
            self.state[row * self.wide + col + k] = SHUT

    def put_port(self, port, row, col, way, mark):
        self.ports[port] = (row * self.wide + col, way)
        self.put(row, col, mark)
        for step in self.steps.values():
            if 0 <= row * self.wide + col + step < len(self.state):
                self.wires_beside[row * self.wide + col + step] += 1

    def put_box_port(self, port):
        row, col, text = self.rects[port[1]]
        width, height = len(text[0]), len(text)
        across, down = col + 1 + self.random.randrange(width), row + 1 + self.random.randrange(height)
        at = {'N': (row - 1, across, 'S', 'v'), 'W': (down, col - 1, 'E', '>'),
              'S': (row + height + 2, across, 'S', '|'), 'E': (down, col + width + 2, 'E', '-')}[port[0]]
        self.put_port(port, *at)

    def lay(self, start, goal):
        """Looks for a way, at prices that are drawn. No cell of another wire is beside a turn, and no turn beside it."""
        state, steps, wide = self.state, self.steps, self.wide
        dear = [1 + 2 * self.random.random() for _ in range(64)]
        goal_row, goal_col = divmod(goal[0], wide)
        best, done, back, price_of = [(0, 0, *start)], set(), {}, {start: 0}
        while best:
            _, price, at, way = heapq.heappop(best)
            if (at, way) in done:
                continue
            done.add((at, way))
            if (at, way) == goal:
                return self.mark(start, goal, back)
            there, across = at + steps[way], way in 'EW'
            if there == goal[0] and way == goal[1]:
                ways = way
            elif state[there] == SHUT or self.turns_beside[there] or state[there] == (EAST if across else SOUTH):
                continue
            elif state[there] != FREE or self.wires_beside[there] > (state[at] != FREE):
                ways = way
            else:
                ways = way + ('NS' if across else 'EW')
            row, col = divmod(there, wide)
            far = abs(row - goal_row) + abs(col - goal_col)
            cost = price + dear[there * 37 % 64]
            for new in ways:
                if new != way:
                    cost += 1
                if cost < price_of.get((there, new), 1e9):
                    price_of[there, new] = cost
                    back[there, new] = (at, way)
                    heapq.heappush(best, (cost + far, cost, there, new))
        raise Stuck()

    def mark(self, start, goal, back):
        """Writes a way from its end: at each cell it is known how the wire comes and how it leaves."""
        at, way = back[goal]
        while (at, way) != start:
            before = back[at, way]
            mark = '+' if before[1] != way else '#' if self.state[at] != FREE else '-' if way in 'EW' else '|'
            self.sheet.cells[divmod(at, self.wide)] = mark
            self.state[at] = SHUT if mark in '+#' else EAST if mark == '-' else SOUTH
            for step in self.steps.values():
                self.wires_beside[at + step] += 1
                self.turns_beside[at + step] += mark == '+'
            at, way = before


def tangled_module(random, module):
    """A drawing of the module, which may have its boxes in another order. More room is made until all wires go."""
    for room in range(6, 60, 3):
        for _ in range(3):
            try:
                tangle = Tangle(random, module, room)
            except (Stuck, ValueError):
                continue
            text = tangle.sheet.text()
            strewn = scattered(random, text)
            for found in (strewn, text):
                if reads_as(found, tangle.module):
                    return tangle.module, found
    raise Stuck()


def reads_as(text, module):
    """Is this a drawing of the module? Asked of it alone, so what its boxes use isn't looked at."""
    from grid import Cells, frames, module as read
    try:
        cells = Cells(text.encode())
        return read(cells, frames(cells)[0])[0] == module
    except NoProgram:
        return False


def scattered(random, text):
    """The same with a `#` in place of some cells of wires."""
    return ''.join('#' if mark in '-|' and random.random() < 0.03 else mark for mark in text)


def tangled(random, modules):
    found = [tangled_module(random, m) for m in modules]
    text = []
    for _, drawn in found:
        if random.random() < 0.3:
            text.append('a comment, * here; and +-- there\n')
        text.append(drawn)
    end = '\r\n' if random.random() < 0.1 else '\n'
    whole = ''.join(text).replace('\n', end)
    return [m for m, _ in found], whole.encode()

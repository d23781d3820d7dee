"""The page of `explain grid`, by docs/EXPLAIN.md, from the line of `codex check`: the rows around the place, the sentence of
the fault, the cell where the border of a frame or box breaks, and the module or box that a fault is about."""
import re

import grid

# the sentence of each fault, by its number
SENTENCES = {
    1: 'A drawing has at most 262,144 bytes.',
    2: "This byte isn't printable ASCII: mostly a tab, or a letter with an accent, in a comment too.",
    3: 'A line has at most 4,096 columns.',
    4: 'From this corner no frame closes: mostly a border is a cell too short, too long, or has a gap.',
    5: 'This corner or its frame shares a cell with an earlier frame: frames stand side by side.',
    6: 'This is a second entry: a module has one `|` in its top border and one `-` in its left border.',
    7: "A module's name begins here, right below the corner, with a letter: a to z.",
    8: 'From this corner no box closes: mostly an edge or a side is a cell too short, long, or has a gap.',
    9: 'This corner or its box shares a cell with an earlier box: boxes may touch, but share no cell.',
    10: 'Up to this byte the text could begin a command, and with it no longer: send, case, split or use.',
    11: 'This is a second port of this side of the box: a side has one port at most.',
    12: "A wire comes to this cell and can't go on: wires never join, turn at `+`, and cross at `#`.",
    13: 'At a `+` a wire turns to just one side; where two wires cross, draw a `#`.',
    14: 'Two wires come to this cell: wires never join, and what goes to two places is sent twice.',
    15: 'No wire comes to this cell. Right beside a box only a `|` below or a `-` after it begins a wire.',
    16: 'This module has the name of an earlier one: each module has a name of its own.',
    17: 'One module must have the name `main`.',
    18: 'This module is `main`, which takes no input: no `|` above and no `-` on its left border.',
    19: "This box uses a module that isn't in the file: mostly its name is misspelt.",
    20: 'To a use box lead just the wires for which the module has entries: north to N and west to W.',
    21: 'The command of this box names N or W, and no wire ends in a `v` above it or a `>` before it.',
    22: 'This box waits for itself along its wires: draw a loop as a module that uses itself.',
    24: 'An expression has at most 64 levels: send a part of it from another box.',
}

def rows_of(text):
    rows = text.split(b'\n')
    return rows[:-1] if rows[-1:] == [b''] else rows


def cell(rows, row, col):
    """The byte of a cell, and a space outside of the drawing."""
    if 1 <= row <= len(rows):
        line = rows[row - 1][:-1] if rows[row - 1].endswith(b'\r') else rows[row - 1]
        if 1 <= col <= len(line):
            return line[col - 1:col]
    return b' '


def picture(text, row, col):
    """The lines of the rows around a place, with its mark."""
    rows = rows_of(text)
    first = col - 40 if col > 80 else 1
    lines = [' ' * 7 + ' | ' + ''.join(
        str(k // 10 % 10) if k % 10 == 0 else '+' if k % 5 == 0 else '.' for k in range(first, first + 80))]
    for number in range(max(row - 4, 1), min(row + 4, max(len(rows), row)) + 1):
        line = rows[number - 1] if number <= len(rows) else b''
        line = line[:-1] if line.endswith(b'\r') else line
        shown = ''.join(chr(b) if 32 <= b <= 126 else '?' for b in line[first - 1:first + 79])
        lines.append(str(number).rjust(7) + ' | ' + shown)
        if number == row:
            lines.append(' ' * 7 + ' | ' + ' ' * (col - first) + '^')
    return lines


# the four sides of a frame and of a box: what stands along them, and at the end of each
FRAME = ((b'.|', b','), (b':-', b"'"), (b'.', b"'"), (b':-', b"'"))
BOX = ((b'=', b'*'), (b'!', b'*'), (b'=', b'*'), (b'!', b'*'))


def border_break(text, row, col, sides):
    """The side that breaks first, and the cell: top, left, bottom, right; nothing where all four close."""
    rows = rows_of(text)
    (top, top_end), (left, left_end), (bottom, bottom_end), (right, right_end) = sides
    far = col + 1
    while cell(rows, row, far) in [top[k:k + 1] for k in range(len(top))]:
        far += 1
    if cell(rows, row, far) != top_end:
        return 'top', row, far
    low = row + 1
    while cell(rows, low, col) in [left[k:k + 1] for k in range(len(left))]:
        low += 1
    if cell(rows, low, col) != left_end:
        return 'left', low, col
    for at in range(col + 1, far):
        if cell(rows, low, at) not in [bottom[k:k + 1] for k in range(len(bottom))]:
            return 'bottom', low, at
    if cell(rows, low, far) != bottom_end:
        return 'bottom', low, far
    for at in range(row + 1, low):
        if cell(rows, at, far) not in [right[k:k + 1] for k in range(len(right))]:
            return 'right', at, far
    return None


def ring(module, box):
    """The boxes for which a box waits, back to itself: the nearest ones, those of the north side first."""
    found, via = [box], [0]
    for place, here in enumerate(found):
        feeders = grid.sources(module.boxes[here])
        if box in feeders:
            way = []
            while place:
                way.append(found[place])
                place = via[place]
            return way[::-1] + [box]
        for feeder in feeders:
            if feeder not in found:
                found.append(feeder)
                via.append(place)
    raise AssertionError('a box of a cycle is in no ring')


def subject(number, text, row, col):
    """What is told of the module or box at the place of a fault of the list of modules."""
    cells = grid.Cells(text)
    frames = grid.frames(cells)
    modules = [grid.module(cells, frame) for frame in frames]
    if number == 16:
        named = next(module.name for frame, (module, _) in zip(frames, modules) if (frame.top, frame.left) == (row, col))
        first = next(frame for frame, (module, _) in zip(frames, modules) if module.name == named)
        return ['The first one stands here:'] + picture(text, first.top, first.left)
    module, corners = next(each for each in modules if (row, col) in each[1])
    box = corners.index((row, col))
    lines = ['It is %s box %d.' % (module.name, box + 1)]
    for place, waited in enumerate(ring(module, box) if number == 22 else []):
        lines.append('  waits for %s box %d' % (module.name, waited + 1))
        if place < 9:
            lines += picture(text, *corners[waited])
    return lines


def page(line, text):
    """The page of a drawing, of which `check` says this line."""
    lines = [line]
    told = re.fullmatch(r'refused (\d+) \w+(?: at (\d+):(\d+))?', line)
    if told:
        number = int(told.group(1))
        place = (int(told.group(2)), int(told.group(3))) if told.group(2) else None
        if place:
            lines += picture(text, *place)
        lines.append(SENTENCES[number])
        found = border_break(text, *place, {4: FRAME, 8: BOX}[number]) if number in (4, 8) else None
        if found:
            lines.append('The %s border breaks at %d:%d:' % found)
            lines += picture(text, *found[1:])
        if number in (16, 19, 20, 21, 22):
            lines += subject(number, text, *place)
    return ''.join(each + '\n' for each in lines)

"""Random programs with the types of their wires, so that a sheet that fits can be written beside each.

`typed_program(random)` gives the modules of a program and its Typing. `changed(random, modules)` is a program like it
with a command or two changed, which may be stuck or no longer fit.
"""
from grid import Box, Module, expressions, kept_order, names_input

NAMES = ['a', 'b', 'e', 'n', 's', 'u', 'w', 'x9', 'of', 'type', 'wire', 'module', 'nat', 'bit', 'list', 'use', 'send',
         'case', 'split', 'of_', 'inl', 'z_', 'a_name_of_thirty_two_bytes_here_', 'plus', 'v']


class Typing:
    """The declared types, the entries and results of modules, and what carries which type."""

    def __init__(self):
        self.forms = {}         # name: () or ('pair', b, c) or ('sum', b, c)
        self.modules = {}       # name: (north type, west type, result type), the first two None where there is none
        self.wires = {}         # (module, side, box): type
        self.expressions = {}   # (module, box): type


def random_types(random):
    forms, names = {}, random.sample(NAMES, random.randint(1, 5))
    for name in names:
        shape = random.choice(['unit', 'pair', 'sum', 'sum'])
        if shape == 'unit' or not forms:
            forms[name] = ()
        else:
            forms[name] = (shape, random.choice(names), random.choice(names))
    return forms


def heights(forms):
    """How high the least value of each type is, for those that have one."""
    found = {}
    for _ in forms:
        for name, form in forms.items():
            parts = [found.get(part) for part in form[1:]]
            if not form:
                found[name] = 0
            elif form[0] == 'pair' and None not in parts:
                found[name] = min(found.get(name, 99), 1 + max(parts))
            elif form[0] == 'sum' and parts != [None, None]:
                found[name] = min(found.get(name, 99), 1 + min(p for p in parts if p is not None))
    return found


class Maker:
    """Makes one module after another, box by box."""

    def __init__(self, random, typing):
        self.random, self.typing = random, typing
        self.heights = heights(typing.forms)
        self.types = [name for name in typing.forms if name in self.heights]

    def chance(self, part):
        return self.random.random() < part

    def expression(self, name, inputs, depth):
        """An expression of the type, over inputs of these types; None where there is none."""
        sides = [side for side, carried in inputs.items() if carried == name]
        if sides and (self.chance(0.6) or name not in self.heights):
            return self.random.choice(sides)
        if name not in self.heights:
            return None
        form = self.typing.forms[name]
        if not form:
            return '()'
        if form[0] == 'pair':
            parts = [self.expression(part, inputs, depth - 1) for part in form[1:]]
            return None if None in parts else ('pair', *parts)
        sides = [side for side in (1, 2) if form[side] in self.heights]
        side = self.random.choice(sides)
        if depth < 0:
            side = min(sides, key=lambda s: self.heights[form[s]])
        return ('Inl' if side == 1 else 'Inr', self.expression(form[side], inputs, depth - 1))

    def module(self, name):
        self.name, self.boxes, self.pool = name, [], []
        north, west, self.result = self.typing.modules[name]
        for origin, carried in (('N', north), ('W', west)):
            if carried:
                self.pool.append((origin, carried))
        for _ in range(self.random.randint(0, 5)):
            self.random.choice([self.send, self.send, self.case, self.split, self.use])()
        exits = self.end()
        return Module(name, north is not None, west is not None, self.boxes, exits)

    def add(self, command, n=None, w=None):
        self.boxes.append(Box(command, n and n[0], w and w[0]))
        return len(self.boxes) - 1

    def wire(self, side, box, carried, declared=True):
        self.pool.append(((side, box), carried))
        if declared:
            self.typing.wires[self.name, side, box] = carried

    def draw(self, wanted=None):
        """Takes something that is carried from the pool, of the wanted type where one is given."""
        found = [o for o in self.pool if wanted is None or o[1] == wanted]
        if not found:
            return None
        taken = self.random.choice(found)
        self.pool.remove(taken)
        return taken

    def inputs(self):
        n = self.draw() if self.chance(0.6) else None
        w = self.draw() if self.chance(0.6) else None
        carried = {side: origin[1] for side, origin in (('N', n), ('W', w)) if origin}
        return n, w, carried

    def send(self, wanted=None):
        """A `send`. Where a type is wanted, it goes to the east."""
        n, w, carried = self.inputs()
        outs = []
        for side in self.random.sample('SE', self.random.randint(0, 2)):
            name = self.random.choice(self.types)
            outs.append((self.expression(name, carried, 2), side, name))
        if wanted:
            outs = [out for out in outs if out[1] != 'E'] + [(self.expression(wanted, carried, 2), 'E', wanted)]
        box = self.add(('send', [(x, side) for x, side, _ in outs]), n, w)
        for _, side, name in outs:
            if self.chance(0.85) or (wanted and side == 'E'):
                self.wire(side, box, name)
        for side in 'SE':
            if side not in [out[1] for out in outs] and self.chance(0.1):
                self.wire(side, box, self.random.choice(list(self.typing.forms)))
        return box

    def asked(self, shape):
        """An expression whose type has this shape, with its inputs and whether it is an input itself."""
        n, w, carried = self.inputs()
        right = [side for side in carried if self.typing.forms[carried[side]][:1] == (shape,)]
        if right and self.chance(0.7):
            side = self.random.choice(right)
            return side, carried[side], n, w
        names = [name for name in self.types if self.typing.forms[name][:1] == (shape,)]
        if names:
            name = self.random.choice(names)
            x = self.expression(name, carried, 2)
            return x, name, n, w
        self.pool += [origin for origin in (n, w) if origin]
        return None

    def asking(self, shape, command):
        found = self.asked(shape)
        if not found:
            return
        x, name, n, w = found
        form = self.typing.forms[name]
        sides = command(form)
        box = self.add(('case', x, *sides) if shape == 'sum' else ('split', x), n, w)
        if x not in ('N', 'W'):
            self.typing.expressions[self.name, box] = name
        for side in 'SE':
            if side in sides:
                if (sides[0] != sides[1] or form[1] == form[2]) and self.chance(0.85):
                    self.wire(side, box, form[1 + sides.index(side)], False)
            elif self.chance(0.15):
                self.wire(side, box, self.random.choice(list(self.typing.forms)))

    def case(self):
        self.asking('sum', lambda form: (self.random.choice('SE'), self.random.choice('SE')))

    def split(self):
        self.asking('pair', lambda form: ('S', 'E'))

    def use(self):
        used = self.random.choice([m for m in self.typing.modules if m != 'main' or self.chance(0.1)] or ['main'])
        north, west, result = self.typing.modules[used]
        # what has no value can only be handed on; it is taken before a `send` takes it
        if (north and north not in self.heights) or (west and west not in self.heights):
            n, w = [self.draw(t) if t and t not in self.heights else None for t in (north, west)]
            if any(t and t not in self.heights and not o for t, o in ((north, n), (west, w))):
                self.pool += [o for o in (n, w) if o]
                return
            n, w = n or self.had(north), w or self.had(west)
        else:
            n, w = self.had(north), self.had(west)
        box = self.add(('use', used), n, w)
        if self.chance(0.85):
            self.wire('E', box, result, False)
        if self.chance(0.1):
            self.wire('S', box, self.random.choice(list(self.typing.forms)))

    def of_type(self, name):
        return [o for o in self.pool if o[1] == name]

    def had(self, name):
        """Something that carries this type; a `send` of it is made where there is none."""
        if name is None:
            return None
        if not self.of_type(name) or self.chance(0.3):
            self.send(name)
        return self.draw(name)

    def end(self):
        exits = []
        if self.result in self.heights and self.chance(0.8) and not self.of_type(self.result):
            self.send(self.result)
        for origin in list(self.pool):
            self.pool.remove(origin)
            if origin[1] == self.result and self.chance(0.8):
                exits.append(origin[0])
            elif isinstance(origin[0], str) or self.chance(0.3):
                self.add(('send', []), *((origin, None) if self.chance(0.5) else (None, origin)))
            else:
                self.typing.wires.pop((self.name, *origin[0]), None)
        exits += [None] * (self.chance(0.15) + self.chance(0.05))
        self.random.shuffle(exits)
        return exits


def renumbered(module, places):
    """The module with box b at places[b]."""
    def moved(origin):
        return (origin[0], places[origin[1]]) if isinstance(origin, tuple) else origin

    boxes = [None] * len(places)
    for b, box in enumerate(module.boxes):
        boxes[places[b]] = Box(box.command, moved(box.n), moved(box.w))
    return module._replace(boxes=boxes, exits=[moved(origin) for origin in module.exits])


def shuffled(random, module):
    places = list(range(len(module.boxes)))
    random.shuffle(places)
    return renumbered(module, places), places


def retyped(typing, name, places):
    """Tells the typing that the boxes of a module have new numbers."""
    wires = {k: t for k, t in typing.wires.items() if k[0] != name}
    wires.update({(m, side, places[b]): t for (m, side, b), t in typing.wires.items() if m == name})
    told = {k: t for k, t in typing.expressions.items() if k[0] != name}
    told.update({(m, places[b]): t for (m, b), t in typing.expressions.items() if m == name})
    typing.wires, typing.expressions = wires, told


def typed_program(random):
    typing = Typing()
    typing.forms = random_types(random)
    names = ['main'] + random.sample(NAMES, random.randint(0, 3))
    for name in names:
        entries = [random.choice(list(typing.forms)) if random.random() < 0.5 else None for _ in 'NW']
        if name == 'main':
            entries = [None, None]
        typing.modules[name] = (*entries, random.choice(list(typing.forms)))
    maker = Maker(random, typing)
    modules = []
    for name in names:
        module, places = shuffled(random, maker.module(name))
        retyped(typing, name, places)
        modules.append(module)
    random.shuffle(modules)
    return modules, typing


# Changed programs

def random_expression(random, sides, depth=2):
    choice = random.randrange(4 if depth > 0 else 1)
    if choice == 0:
        return random.choice(['()'] + sides * 2)
    if choice == 1:
        return ('pair', random_expression(random, sides, depth - 1), random_expression(random, sides, depth - 1))
    return (random.choice(['Inl', 'Inr']), random_expression(random, sides, depth - 1))


def changed_command(random, modules, box):
    sides = [side for side, origin in (('N', box.n), ('W', box.w)) if origin is not None]
    command = box.command
    kind = random.randrange(4)
    if command[0] == 'use' or kind == 0:
        used = [m.name for m in modules if (m.north, m.west) == (box.n is not None, box.w is not None)]
        if used and random.random() < 0.5:
            return ('use', random.choice(used))
    if kind == 1 and command[0] == 'case':
        return command[:2] + (random.choice('SE'), random.choice('SE'))
    if kind == 2:
        return random.choice([('split', random_expression(random, sides)),
                              ('case', random_expression(random, sides), random.choice('SE'), random.choice('SE'))])
    outs = random.sample('SE', random.randint(0, 2))
    return ('send', [(random_expression(random, sides), side) for side in outs])


def changed(random, modules):
    modules = list(modules)
    for _ in range(random.randint(1, 2)):
        full = [i for i, m in enumerate(modules) if m.boxes]
        if not full:
            break
        i = random.choice(full)
        boxes = list(modules[i].boxes)
        b = random.randrange(len(boxes))
        boxes[b] = boxes[b]._replace(command=changed_command(random, modules, boxes[b]))
        modules[i] = modules[i]._replace(boxes=boxes)
    return modules


def sound(modules):
    """Is this what the drawing of a program can give: wires one a port, entries wired, no cycle?"""
    for m in modules:
        origins = [o for box in m.boxes for o in (box.n, box.w) if o] + [o for o in m.exits if o]
        if len(set(origins)) < len(origins) or kept_order(m) is None:
            return False
        if m.north != ('N' in origins) or m.west != ('W' in origins):
            return False
        for box in m.boxes:
            for x in expressions(box.command):
                if (names_input(x, 'N') and not box.n) or (names_input(x, 'W') and not box.w):
                    return False
    return True

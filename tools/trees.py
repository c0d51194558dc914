"""What the tools share that write texts of trees: nodes in regions, and roots with ways out."""
import texts
from texts import HEAD, numbers, way

# Constants 0 to 3. A way back on the second is unconditional; the third, a specialisation constant true, is not like it.
CONSTS = '(const 5 43)\n(const 6 41)\n(const 7 48)\n(const 8 0)\n'

# A region is a list of nodes, and a node is one of these.


def block(ops=0):
    return 'block', ops


def select(*cases, kind='(inst 251)', outs=0, control=0):
    return 'select', cases, kind, outs, control


def loop(*nodes, repeat='(c 0)', inputs=0, control=0):
    return 'loop', list(nodes), repeat, inputs, control


EXIT = ('exit',)


def repeated(form, count):
    return numbers([form] * count)


class Text:
    """The lines of trees. Regions, nodes and ops are numbered as they are met; backwards, regions but 0 and nodes the other way round."""

    def __init__(self, backwards=False):
        self.regions, self.nodes, self.ops, self.backwards = [], [], 0, backwards

    def region(self, nodes, inputs=0, outputs=0):
        place = len(self.regions)
        self.regions.append(None)
        held = [self.node(node) for node in nodes]
        self.regions[place] = inputs, held, outputs
        return place

    def node(self, node):
        place = len(self.nodes)
        self.nodes.append(None)
        kind, *rest = node
        if kind == 'block':
            rest = range(self.ops, self.ops + rest[0])
            self.ops += len(rest)
        elif kind == 'select':
            cases, key, outs, control = rest
            rest = [self.region(case, outputs=outs) for case in cases], key, outs, control
        elif kind == 'loop':
            body, repeat, inputs, control = rest
            rest = self.region(body, inputs, inputs), repeat, inputs, control
        self.nodes[place] = kind, rest
        return place

    def number(self, place):
        return len(self.nodes) - 1 - place if self.backwards else place

    def region_number(self, place):
        return len(self.regions) - place if self.backwards and place else place

    def line(self, node):
        kind, rest = node
        if kind == 'block':
            return f'(block{numbers(rest)})\n'
        if kind == 'exit':
            return '(exit (inst 252))\n'
        if kind == 'select':
            cases, key, outs, control = rest
            return texts.select(map(self.region_number, cases), repeated('(0 4)', outs), key, control=control)
        body, repeat, inputs, control = rest
        return texts.loop(self.region_number(body), repeated('(c 0)', inputs), repeat, control)

    def write(self, ctrls='', params=0):
        regions, nodes = [None] * len(self.regions), [None] * len(self.nodes)
        for place, (inputs, held, outputs) in enumerate(self.regions):
            parts = repeated('(0 4)', inputs), numbers(map(self.number, held)), repeated('(c 0)', outputs)
            regions[self.region_number(place)] = texts.region(*parts)
        for place, node in enumerate(self.nodes):
            nodes[self.number(place)] = self.line(node)
        # each op has an opcode of its own, none of the table's
        ops = ''.join(f'(op 0 4 (inst {300 + i}) (c 0))\n' for i in range(self.ops))
        return HEAD + CONSTS + '(param 0 4)\n' * params + ''.join(regions + nodes) + ops + ctrls


def tree(*nodes, params=0, **how):
    text = Text(**how)
    text.region(nodes, inputs=params)
    return text.write(params=params)


def graph(ways, held=lambda root: [], inputs=lambda root: 0):
    """A root for each way out, which is a kind, its targets and what else differs from the least that it needs; `held` gives its nodes and `inputs` how
    many inputs it has, each of which takes constant 0."""
    text = Text()
    roots = [text.region(held(0))]
    for root in range(1, len(ways)):
        roots.append(text.region(held(root), inputs=inputs(root)))
    lines = []
    for root, (kind, to, *rest) in enumerate(ways):
        named = [(roots[r], inputs(r)) for r in dict.fromkeys(to) if inputs(r)]
        vals = ''.join(f" ({r}{repeated('(c 0)', count)})" for r, count in named)
        lines.append(way(roots[root], kind, [roots[r] for r in to], *rest, vals=vals))
    return text.write(''.join(lines))


# A way out.
RETURN = ('return', [])

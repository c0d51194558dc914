"""Texts about the control numbers of selects and loops (document 02, W4), for the stored cases of the programs.

A select and a loop end in a number, 0 for none, 1 for unroll or flatten, 2 for don't, and it becomes their merge's immediate. Without it, or with it in
another form or place, a text is refused by 2; from 3 on by 4, wherever the node stands.
"""
import itertools, re

import texts
from texts import CONST, EMPTY, START, SWITCH, long_list, region, way
from trees import EXIT, RETURN, block, graph, loop, select, tree
from vectors import HIGHEST_ID

FIRST = 10
NUMBERS = range(3)
# The control number of a line.
NUMBER = re.compile(r'^\((?:select|loop) .* ([0-9]+)\)$', re.MULTILINE)


def bool_select(*cases, control, outs=0):
    return select(*cases, kind='bool', outs=outs, control=control)


# What the number may be wrong in, `{}` for it and the space before it, in texts that nothing else refuses: reached, and in a root that is not,
# with a ctrl line and without.
BODY = START + region(nodes=' 0')
ROOT = START + EMPTY + region(nodes=' 0')
SELECT = BODY + EMPTY * 2 + '(select bool (c 0) (cases 1 2) (outs){})\n'
LOOP = BODY + EMPTY + '(loop 1 (c 0) (init){})\n'
LOST_SELECT = ROOT + EMPTY * 2 + '(select bool (c 0) (cases 2 3) (outs){})\n' + way(0, 'return') + way(1, 'return')
LOST = ROOT + EMPTY + '(loop 2 (c 0) (init){})\n' + way(0, 'return')
PLACES = SELECT, LOOP, LOST_SELECT, LOST

# What holds nodes beside its number: a select in its first case, one in its second, and a loop.
HOLDERS = [
    lambda nodes, control: bool_select(nodes, [], control=control),
    lambda nodes, control: bool_select([], nodes, control=control),
    lambda nodes, control: loop(*nodes, control=control),
]


def pairs():
    """One in the other, with every pair of numbers: alone, and with blocks before and behind."""
    for (outer, inner), (one, other) in itertools.product(itertools.product(HOLDERS[1:], repeat=2), itertools.product(NUMBERS, repeat=2)):
        yield tree(outer([inner([], other)], one))
        yield tree(block(1), outer([block(1), inner([block(1)], other), block(1)], one), block(1))


def chains():
    """Merges at the end of several points, which one block joins."""
    for control in NUMBERS:
        # behind blocks and at the end of a region
        yield tree(block(1), block(), block(2), bool_select([], [], control=control))
        yield tree(block(2), block(), loop(control=control), block(1))
        for holder in HOLDERS:
            # the first of a body or case, the last, and alone between others
            yield tree(holder([bool_select([], [], control=control), block(1)], 1))
            yield tree(holder([block(1), loop(control=control)], 2))
            yield tree(holder([loop(control=2), bool_select([block(1)], [], control=control), loop(control=1)], 0))
        # loops behind an exit
        yield tree(EXIT, loop(control=control), block(1))
        yield tree(bool_select([EXIT, loop(control=control)], [EXIT, block(1), loop(control=2)], control=1))
    # in a row
    for row in itertools.permutations(NUMBERS):
        yield tree(*[bool_select([], [], control=control) for control in row])
        yield tree(*[loop(control=control) for control in row])
        yield tree(*[HOLDERS[place]([], control) for place, control in enumerate(row)])
    # of three and of many in each other
    for word in itertools.product(HOLDERS[1:], repeat=3):
        nodes = []
        for holder, control in zip(word, [1, 0, 2]):
            nodes = [block(1), holder(nodes, control)]
        yield tree(*nodes)
    nodes = []
    for depth in range(20):
        nodes = [HOLDERS[depth % 3](nodes, depth % 3)]
    yield tree(*nodes)


def values():
    """Loops on each condition, with inits; selects with outs, by instructions, and instructions with immediates like those of merges."""
    for control in NUMBERS:
        for inputs in 0, 2:
            for const in range(3):
                yield tree(loop(block(1), repeat=f'(c {const})', inputs=inputs, control=control))
            yield tree(loop(loop(repeat='(c 1)', inputs=1, control=control), repeat='(c 1)', inputs=inputs, control=2))
        yield tree(bool_select([block(1)], [], outs=2, control=control))
        yield tree(select([], control=control))
        yield tree(block(1), select([], [block(1)], [loop(control=control)], outs=1, control=control))
        yield tree(select([], [], kind='(inst 251 (0 2 7) (0 3 9))', control=control))
        # an op right before the merge, and the function's control word
        yield tree(block(1), bool_select([], [], control=control)).replace('(inst 300)', '(inst 300 (0 2 7))')
        yield tree(block(1), loop(block(1), control=control)).replace('(inst 300)', '(inst 300 (0 3 7))')
        yield tree(loop(bool_select([], [], control=1), control=control)).replace('(func 0 2 3 0)', '(func 0 2 3 2)')


def roots():
    """In roots that are reached, each behind the last one's way out; ctrl lines have no number and no merge."""
    for ways in [
        [('branch', [1]), RETURN],
        [('branch', [1], 7), ('branch', [2]), RETURN],
        [('bool', [1, 2]), RETURN, RETURN],
        [(SWITCH, [1, 1]), ('(exit (inst 252))', [])],
    ]:
        for control in NUMBERS:
            yield graph(ways, lambda root: [block(1), HOLDERS[root]([], (root + control) % 3)])


def in_order():
    """Accepted texts whose selects and loops are all walked, in the order of their lines: so are the merges of their lists."""
    for source in pairs, chains, values, roots:
        yield from source()


def out_of_order():
    """Accepted texts with the numbers of their lists."""
    # walked from the last line to the first, and in the order of roots
    yield tree(bool_select([loop(control=2)], [], control=1), loop(control=0), backwards=True), [1, 2, 0]
    yield graph([('branch', [2]), RETURN, ('branch', [1])], lambda root: [loop(control=root)]), [0, 2, 1]
    for one, other in itertools.permutations(NUMBERS, 2):
        # a select behind an exit is dropped with the exit's end; what stands in it is not
        yield tree(loop(control=one), EXIT, bool_select([], [], control=other)), [one]
        yield tree(bool_select([block(1), EXIT, select([loop(control=one)], control=other)], [], control=1)), [1, one]
        # in a root that is not reached, with a ctrl line and without
        yield graph([RETURN, RETURN], lambda root: [HOLDERS[2 * root]([loop(control=1)], [one, other][root])]), [one, 1]
        yield LOST.format(f' {one}'), []


def accepted():
    """Accepted texts, each with the control numbers of its list in turn."""
    for text in in_order():
        yield text, [int(number) for number in NUMBER.findall(text)]
    yield from out_of_order()


def misformed():
    """Refusal 2."""
    for place in PLACES:
        # missing; twice; a zero before it; over 32 bits
        for wrong in ['', ' 0 0', ' 1 2', ' 00', ' 01', f' {2 ** 32}']:
            yield place.format(wrong)
    for place in SELECT, LOOP:
        for wrong in [' ', ' 0 0 0', ' 02', ' 03', ' 000', f' {2 ** 32 + 1}', f' {2 ** 64}', ' 99999999999']:
            yield place.format(wrong)
        # no number of base ten
        for wrong in [' -1', ' +1', ' -0', ' 1.', ' 0x1', ' 1e0', ' x', ' bool', ' none', ' unroll', ' (0)', ' (c 0)', ' ()', ' (1']:
            yield place.format(wrong)
        # no space, two, another one, one behind it
        for wrong in ['0', '1', '  0', '\t1', '\n1', ' 0 ', ' 1  ', ' 2\t']:
            yield place.format(wrong)
        # outside of the brackets
        for wrong in [') 0', ')0', ')\n0', ' 0) 0']:
            yield place.replace('{})', wrong)
    # before the last list and further in front, with none at the end and with one; in the last list, and in place of it
    for end in '', ' 0':
        for line in [
            '(select bool (c 0) (cases 1 2) 0 (outs){})\n',
            '(select bool (c 0) 0 (cases 1 2) (outs){})\n',
            '(select bool 0 (c 0) (cases 1 2) (outs){})\n',
            '(select 0 bool (c 0) (cases 1 2) (outs){})\n',
            '(select bool (c 0) (cases 1 2) (outs 0){})\n',
            '(select bool (c 0) (cases 1 2) (outs (0 4) 0){})\n',
            '(select bool (c 0) (cases 1 2){})\n',
            '(loop 1 (c 0) 0 (init){})\n',
            '(loop 1 0 (c 0) (init){})\n',
            '(loop 0 1 (c 0) (init){})\n',
            '(loop 1 (c 0) (init 0){})\n',
            '(loop 1 (c 0) (init (c 0) 0){})\n',
            '(loop 1 (c 0){})\n',
        ]:
            yield BODY + EMPTY * line.count('(select') + EMPTY + line.format(end)
    # on an exit, behind a block, and in it as a form of its own
    for number in NUMBERS:
        for line in ['(exit (inst 252) {})\n', '(exit (inst 252) (c 0) {})\n', '(exit {} (inst 252))\n', '(block) {}\n', '(block ({}))\n']:
            yield BODY + line.format(number)
            yield ROOT + line.format(number) + way(0, 'return')
    # on other lines
    yield START + '(region (in) (nodes) (out) 0)\n'
    yield START + EMPTY * 2 + '(ctrl 0 0 branch (ins) (to 1) (vals) 0)\n' + way(1, 'return')
    yield START + EMPTY * 3 + '(ctrl 0 0 bool (ins (c 0)) (to 1 2) (vals) 1)\n' + way(1, 'return') + way(2, 'return')
    # missing between lines that have it
    lines = [texts.loop(i, control=i % 3) for i in range(1, 5)]
    lines[2] = '(loop 3 (c 0) (init))\n'
    yield START + region(nodes=' 0 1 2 3') + EMPTY * 4 + ''.join(lines)


def on_a_block():
    """There a number names an op: one that isn't there is refused by 4, and one that stands in two places by 5."""
    for number in NUMBERS:
        yield BODY + f'(block {number})\n', 4
        yield START + region(nodes=' 0 1') + f'(block 0 1 2)\n(block {number})\n' + '(op 0 0 (inst 1))\n' * 3, 5


def too_high():
    """Refusal 4."""
    for place in PLACES:
        for number in [*range(3, 11), 255, 256, 65535, 65536, 2 ** 31, 2 ** 32 - 1]:
            yield place.format(f' {number}')
    for number in 3, 65538:
        # one in the other, and beside it: either and both
        for one, other in (number, 0), (0, number), (number, number):
            for outer, inner in itertools.product(HOLDERS[1:], repeat=2):
                yield tree(outer([block(1), inner([], other)], one))
            yield tree(loop(control=one), bool_select([], [], control=other))
        # behind an exit; by an instruction, with outs; a loop that never ends, with inits
        yield tree(EXIT, loop(control=number))
        yield tree(bool_select([EXIT, select([], control=number)], [], control=1))
        yield tree(select([], [], [], outs=2, control=number))
        yield tree(loop(repeat='(c 1)', inputs=2, control=number))
        # the first of many and the last
        for place in 0, 29:
            yield tree(*[loop(control=number if i == place else 1) for i in range(30)])


def before(place, lines):
    """The text with further lines of nodes before the one that has a number."""
    return re.sub(r'^(?=\(select|\(loop)', lines, place, flags=re.MULTILINE)


def beside():
    """First id, a text with `{}` for the number, and what refuses it where that is not too high: 2 and 3 come before 4, and the others after it."""
    for place in PLACES:
        # a bracket is missing at the end, and in another line; a line in the wrong place
        yield FIRST, place[:-2] + '\n', 2
        yield FIRST, place.replace(EMPTY, EMPTY[:-2] + '\n', 1), 2
        yield FIRST, place + CONST, 2
        # over 128 nodes, and regions
        yield FIRST, before(place, '(block)\n' * 128), 3
        yield FIRST, place.replace(EMPTY, EMPTY * 128, 1), 3
        # another reference that does not hold: a value, a node, a const id twice
        yield FIRST, place.replace('(c 0)', '(c 1)'), 4
        yield FIRST, place.replace('(nodes 0)', '(nodes 9)'), 4
        yield FIRST, place.replace(CONST, CONST * 2), 4
        # a node in no list, and one in two
        yield FIRST, before(place, '(block)\n').replace('(nodes 0)', '(nodes 1)'), 5
        yield FIRST, place.replace('(nodes 0)', '(nodes 0 0)'), 5
        # a param without an input
        yield FIRST, place.replace(CONST, CONST + '(param 0 4)\n'), 6
        # the first id is 0, is the text's highest, and too high
        for first in 0, 5, HIGHEST_ID:
            yield first, place, 9
    # equal cases, and a region in itself
    yield FIRST, SELECT.replace('(cases 1 2)', '(cases 1 1)'), 5
    yield FIRST, LOOP.replace('(loop 1', '(loop 0'), 5
    # the counts of a case, of cases by `bool` and of a loop
    yield FIRST, SELECT.replace('(outs)', '(outs (0 4))'), 6
    yield FIRST, SELECT.replace('bool', SWITCH).replace('(cases 1 2)', '(cases)').replace(EMPTY, ''), 6
    yield FIRST, LOOP.replace('(init)', '(init (c 0))'), 6
    # a ctrl line on a child; two on a region; region 0 as a target; a line that is missing
    for place in SELECT, LOOP:
        yield FIRST, place + way(0, 'return') + way(1, 'return'), 7
        yield FIRST, place + way(0, 'return') * 2, 7
        yield FIRST, place + way(0, 'branch', [0]), 7
    yield FIRST, LOST.replace(way(0, 'return'), way(0, 'branch', [1])), 7
    # equal `bool` targets, reached and not
    yield FIRST, LOST.replace(way(0, 'return'), way(0, 'bool', [1, 1]) + way(1, 'return')), 13
    yield FIRST, LOST + way(1, 'bool', [1, 1]), 13
    # a value that is not set, with a first id that is not too low and with one that is
    unset = ROOT.replace('(nodes 0)', '(nodes 0 1)') + EMPTY + '(loop 2 (c 0) (init){})\n(block 0)\n(op 0 4 (inst 128))\n' + way(0, 'return', ins=' (d 0)')
    yield FIRST, unset, 10
    yield 0, unset, 9


def controls():
    """First id, text, and the number by which `lift` refuses it or 0."""
    for text, _ in accepted():
        yield FIRST, text, 0
    for source, number in (misformed, 2), (too_high, 4):
        for text in source():
            yield FIRST, text, number
    for text, number in on_a_block():
        yield FIRST, text, number
    for first, text, number in beside():
        yield first, text.format(' 2'), number
        yield first, text.format(' 3'), min(number, 4)


def too_long(control):
    """A list that is too long, and a loop with this number."""
    return long_list(held=' 121', regions=EMPTY, nodes=texts.loop(121, control=control))

"""Texts about two equal targets (document 02, W7), for the stored cases of the programs.

A `bool` ctrl line may not have them, reached or not; a selection by an instruction may. So a text that nothing else refuses is refused by 13
with `bool`, and with `(inst 251)` in the same place it isn't.
"""
from texts import CONST, EMPTY, HEAD, RETURN, START, SWITCH, long_list, loop, region, select, way
from vectors import HIGHEST_ID

INPUT = region(ins=' (0 4)')
FIRST = 10


def both(text, number=0, first=FIRST):
    """A text with `{}` for the kind of a line with two equal targets: by `bool`, and by an instruction, where it is refused by this number or not."""
    yield first, text.format('bool'), 13
    yield first, text.format(SWITCH), number


def alike(kind):
    """A reached line of this kind with equal targets, and the region that it names."""
    return START + EMPTY * 2 + way(0, kind, [1, 1]) + RETURN


def equal():
    # reached, without values, with an entry of none, with one and with two
    yield from both(alike('{}'))
    yield from both(START + EMPTY * 2 + way(0, '{}', [1, 1], vals=' (1)') + RETURN)
    yield from both(START + EMPTY + INPUT + way(0, '{}', [1, 1], vals=' (1 (c 0))') + way(1, 'return', ins=' (r 1 0)'))
    two = region(ins=' (0 4) (7 8)')
    yield from both(START + EMPTY + two + way(0, '{}', [1, 1], attrs=7, vals=' (1 (c 0) (c 0))') + way(1, 'return', ins=' (r 1 1)'))
    # not reached, to itself and to a root that is reached, without values and with one
    yield from both(START + EMPTY * 2 + way(0, 'return') + way(1, '{}', [1, 1]))
    yield from both(START + EMPTY + INPUT + way(0, 'return') + way(1, '{}', [1, 1], vals=' (1 (r 1 0))'))
    yield from both(START + EMPTY * 3 + way(0, 'branch', [1]) + RETURN + way(2, '{}', [1, 1]))
    yield from both(START + EMPTY + INPUT + EMPTY + way(0, 'branch', [1], vals=' (1 (c 0))') + RETURN + way(2, '{}', [1, 1], vals=' (1 (c 0))'))
    # the first of two `bool` lines, the second, and the second of the text that is the first reached
    yield from both(START + EMPTY * 4 + way(0, '{}', [1, 1]) + way(1, 'bool', [2, 3]) + way(2, 'return') + way(3, 'return'))
    yield from both(START + EMPTY * 3 + way(0, 'bool', [1, 2]) + way(1, '{}', [2, 2]) + way(2, 'return'))
    yield from both(START + EMPTY * 4 + way(3, 'return') + way(1, 'bool', [3, 2]) + way(2, 'return') + way(0, '{}', [1, 1]))
    # two such lines, of which one is by an instruction
    yield from both(START + EMPTY * 3 + way(0, SWITCH, [1, 1]) + way(1, '{}', [2, 2]) + way(2, 'return'))
    # back to itself, and behind an exit
    yield from both(START + EMPTY * 2 + way(0, 'branch', [1]) + way(1, '{}', [1, 1]))
    yield from both(START + region(nodes=' 0') + EMPTY + '(exit (inst 252))\n' + way(0, '{}', [1, 1]) + RETURN)
    # behind many lines with two targets
    ways = ''.join(way(i, 'bool', [i + 2, i + 1]) for i in range(38))
    yield from both(START + EMPTY * 40 + ways + way(38, '{}', [39, 39]) + way(39, 'return'))


def different():
    # two targets, either first; and numbers that begin alike
    ends = RETURN + way(2, 'return')
    for to in [1, 2], [2, 1]:
        yield FIRST, START + EMPTY * 3 + way(0, 'bool', to) + ends, 0
    yield FIRST, START + EMPTY + INPUT * 2 + way(0, 'bool', [1, 2], vals=' (1 (c 0)) (2 (c 0))') + ends, 0
    returns = ''.join(way(i, 'return') for i in range(1, 12))
    for to in [1, 11], [11, 1]:
        yield FIRST, START + EMPTY * 12 + way(0, 'bool', to) + returns, 0
    # equal targets of different lines
    yield FIRST, START + EMPTY * 4 + way(0, 'bool', [1, 2]) + way(1, 'bool', [2, 3]) + way(2, 'bool', [3, 2]) + way(3, 'bool', [3, 2]), 0
    yield FIRST, START + EMPTY * 3 + way(0, 'bool', [1, 2]) + way(1, 'branch', [2]) + way(2, 'branch', [2]), 0
    # an instruction's equal targets beside a `bool` line's
    yield FIRST, START + EMPTY * 3 + way(0, SWITCH, [1, 1, 2, 2]) + way(1, 'bool', [2, 1]) + way(2, SWITCH, [1, 1]), 0
    # a select is no ctrl line: equal cases are a child of two places
    yield FIRST, START + region(nodes=' 0') + EMPTY + select([1, 1]), 5
    yield FIRST, START + region(nodes=' 0') + EMPTY * 2 + select([1, 1]) + way(0, 'bool', [2, 2]) + way(2, 'return'), 5


def earlier():
    """Refusals that come before 13."""
    # a bracket is missing at the end
    yield alike('bool')[:-2] + '\n', 2
    # over 512 targets; 512 are no reason
    for count, number in (511, 3), (510, 13):
        yield START + EMPTY * 3 + way(0, SWITCH, [2] * count) + way(1, 'bool', [2, 2]) + way(2, 'return'), number
    # over 128 nodes
    yield START + EMPTY * 2 + '(block)\n' * 129 + way(0, 'bool', [1, 1]) + RETURN, 3
    # the targets name nothing; another reference does not
    yield START + EMPTY * 2 + way(0, 'bool', [2, 2]) + RETURN, 4
    yield HEAD + EMPTY * 2 + way(0, 'bool', [1, 1]) + RETURN, 4
    yield START + CONST + EMPTY * 2 + way(0, 'bool', [1, 1]) + RETURN, 4
    # a node stands nowhere; a region is a child of itself
    yield START + EMPTY * 2 + '(block)\n' + way(0, 'bool', [1, 1]) + RETURN, 5
    yield START + EMPTY * 2 + region(nodes=' 0') + loop(2) + way(0, 'bool', [1, 1]) + RETURN, 5
    # no value for an input; a value too many; an output of region 0
    yield START + EMPTY + INPUT + way(0, 'bool', [1, 1]) + RETURN, 6
    yield START + EMPTY * 2 + way(0, 'bool', [1, 1], vals=' (1 (c 0))') + RETURN, 6
    yield START + region(out=' (c 0)') + EMPTY + way(0, 'bool', [1, 1]) + RETURN, 6
    # region 0 twice, reached and not; a child twice
    yield START + EMPTY + way(0, 'bool', [0, 0]), 7
    yield START + EMPTY * 2 + way(0, 'return') + way(1, 'bool', [0, 0]), 7
    yield START + region(nodes=' 0') + EMPTY + select([1], kind=SWITCH) + way(0, 'bool', [1, 1]), 7
    # three targets, two or all of them equal
    ends = RETURN + way(2, 'return')
    for to in [1, 1, 2], [1, 2, 2], [1, 2, 1], [1, 1, 1]:
        yield START + EMPTY * 3 + way(0, 'bool', to) + ends, 7
    # one target; no input and two
    yield START + EMPTY * 2 + way(0, 'bool', [1]) + RETURN, 7
    for ins in '', ' (c 0) (c 0)':
        yield START + EMPTY * 2 + way(0, 'bool', [1, 1], ins=ins) + RETURN, 7
    # values twice for the target, and for a region that is none
    yield START + EMPTY * 2 + way(0, 'bool', [1, 1], vals=' (1) (1)') + RETURN, 7
    yield START + EMPTY * 3 + way(0, 'bool', [1, 1], vals=' (2)') + ends, 7
    # a line is missing on the target, and stands twice on region 0; the other line of the text doesn't fit
    yield START + EMPTY * 2 + way(0, 'bool', [1, 1]), 7
    yield START + EMPTY * 2 + way(0, 'bool', [1, 1]) * 2 + RETURN, 7
    yield START + EMPTY * 2 + way(0, 'bool', [1, 1]) + way(1, 'branch'), 7


def later():
    """Refusals that come after 13."""
    # 9: the first id is 0, is the text's highest, and too high
    for first in 0, 5, HIGHEST_ID:
        yield from both(alike('{}'), 9, first)
    # 10: the input of a root that is not reached, and an op's result there, by a line that is reached and by one that isn't
    unset = way(1, 'return', ins=' (r 2 0)')
    yield from both(START + EMPTY * 2 + INPUT + way(0, '{}', [1, 1]) + unset, 10)
    yield from both(START + EMPTY * 2 + INPUT + way(0, 'branch', [1]) + unset + way(2, '{}', [1, 1]), 10)
    held = EMPTY + INPUT + region(nodes=' 0') + '(block 0)\n(op 0 4 (inst 128))\n'
    yield from both(START + held + way(0, '{}', [1, 1], vals=' (1 (d 0))') + RETURN, 10)
    # 9 and 10
    yield from both(START + EMPTY * 2 + INPUT + way(0, '{}', [1, 1]) + unset, 9, 0)


def labels():
    """First id, text, and the number by which `lift` refuses it or 0."""
    yield from equal()
    yield from different()
    for text, number in earlier():
        yield FIRST, text, number
    yield from later()


def too_long(kind):
    """A list that is too long, and two equal targets."""
    return long_list(regions=EMPTY, ctrls=way(0, kind, [121, 121]) + way(121, 'return'))

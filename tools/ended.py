"""Texts about cases that end in an exit (document 02, W2), for the stored cases of the programs.

A case that has no outputs at all, and whose last node is itself an exit, may stand beside a select with outs: it is let off, and phis take no pair
from it. Every other unequal count is refusal 6 as before.
"""
import texts
from texts import CONST, EMPTY, HEAD, START, SWITCH, long_list, loop, numbers, region, way
from vectors import HIGHEST_ID, let_off

FIRST = 10
OUT = ' (0 4)'
EXIT = '(exit (inst 252))\n'
BLOCK = '(block)\n'
# A block of op 0, and an op.
HOLDS = '(block 0)\n'
OP = '(op 0 4 (inst 128) (c 0))\n'
# A case that gives constant 0, and one that holds node 1.
GIVES = region(out=' (c 0)')
ENDS = region(nodes=' 1')
NEVER = HEAD + '(const 5 41)\n'


def select(cases, outs=OUT, **how):
    return texts.select(cases, outs, **how)


def beside(cases, nodes, kind='bool', outs=OUT, before='', after='', out=' (n 0 0)', regions='', more='', start=START):
    """A text about node 0, a select over these cases. Region 0 holds it between the nodes `before` and `after`, and gives `out`; further regions
    follow the cases, further nodes the select, and then what else the text has."""
    lines = region(nodes=f'{before} 0{after}', out=out) + ''.join(cases) + regions
    return start + lines + select(range(1, len(cases) + 1), outs, kind=kind) + nodes + more


def some_and_all():
    # one case of two, the first and the last; of three, each in turn; two of three
    yield beside([ENDS, GIVES], EXIT)
    yield beside([GIVES, ENDS], EXIT)
    yield beside([ENDS, GIVES], EXIT, out='')
    for place in range(3):
        yield beside([ENDS if i == place else GIVES for i in range(3)], EXIT, kind=SWITCH)
    ends = [region(nodes=f' {i}') for i in range(1, 4)]
    yield beside([ends[0], GIVES, ends[1]], EXIT * 2, kind=SWITCH)
    # all of two, of one and of three: the phis have no pair
    yield beside(ends[:2], EXIT * 2)
    yield beside(ends[:2], EXIT * 2, out='')
    yield beside(ends[:1], EXIT, kind=SWITCH)
    yield beside(ends, EXIT * 3, kind=SWITCH)
    # beside one that ends in an exit too and gives its output
    yield beside([ends[0], region(nodes=' 2', out=' (c 0)')], EXIT * 2)
    # more outs, with attributes
    yield beside([ENDS, region(out=' (c 0) (c 0)')], EXIT, outs=' (0 4) (7 8)', out=' (n 0 1)')
    three = ' (1 4) (0 4) (9 8)'
    yield beside(ends[:2], EXIT * 2, outs=three, out=' (n 0 2)')
    gives = region(out=' (c 0) (c 0) (c 0)')
    yield beside([gives, ENDS, gives], EXIT, kind=SWITCH, outs=three, out=' (n 0 1)')
    # the exit has immediates, values and another opcode
    yield beside([ENDS, GIVES], '(exit (inst 4416))\n')
    yield beside([ENDS, GIVES], '(exit (inst 252 (0 5 7) (1 6 8) (2 6 9)))\n')
    yield beside([ENDS, GIVES], '(exit (inst 4416 (0 5 7)) (c 0) (c 0))\n')
    yield beside([GIVES, ENDS], '(exit (inst 1) (c 0))\n', kind='(inst 251 (0 5 7))')


def contents():
    """What stands before the exit, which is the last of the region's list, whatever its number."""
    for held, nodes, more in [
        (' 1 2', BLOCK + EXIT, ''),
        (' 2 1', EXIT + BLOCK, ''),
        (' 1 2', '(block 0 1)\n(exit (inst 252) (d 0) (d 1))\n', OP * 2),
        (' 1 2', EXIT * 2, ''),
        (' 1 2 3', EXIT + HOLDS + EXIT, OP),
        (' 1 2 3', EXIT * 3, ''),
        (' 3 2 1', EXIT + HOLDS + '(block 1)\n', OP * 2),
    ]:
        yield beside([region(nodes=held), GIVES], nodes, more=more)
        yield beside([region(nodes=held)], nodes, kind=SWITCH, more=more)
    # a loop, one whose body exits, one behind an exit; a select, one whose cases all exit
    two, three = region(nodes=' 1 2'), region(nodes=' 1 2 3')
    yield beside([two, GIVES], loop(3) + EXIT, regions=EMPTY)
    yield beside([two, GIVES], loop(3) + EXIT * 2, regions=region(nodes=' 3'))
    yield beside([three, GIVES], EXIT + loop(3) + EXIT, regions=EMPTY)
    yield beside([two, GIVES], select([3, 4], '') + EXIT, regions=EMPTY * 2)
    yield beside([two, GIVES], select([3, 4], '') + EXIT * 3, regions=region(nodes=' 3') + region(nodes=' 4'))


def nested():
    """Selects in each other and in loops."""
    # the inner one has a case let off, or all, and the outer one gives its out
    ends = [region(nodes=f' {i}') for i in range(5)]
    inner = region(nodes=' 1', out=' (n 1 0)')
    yield beside([inner, GIVES], select([3, 4]) + EXIT, regions=ends[2] + GIVES)
    yield beside([GIVES, inner], select([3, 4], kind=SWITCH) + EXIT, regions=GIVES + ends[2])
    yield beside([inner, GIVES], select([3, 4]) + EXIT * 2, regions=ends[2] + ends[3])
    # it stands before the exit of a case let off, which has its out for a value or not
    yield beside([region(nodes=' 1 3'), GIVES], select([3, 4]) + EXIT * 2, regions=ends[2] + GIVES)
    yield beside([region(nodes=' 1 4'), GIVES], select([3, 4]) + EXIT * 3, regions=ends[2] + ends[3])
    yield beside([region(nodes=' 1 3'), ends[4]], select([3], kind=SWITCH) + EXIT * 3, regions=ends[2])
    yield beside([region(nodes=' 1 3')], select([2], kind=SWITCH) + EXIT + '(exit (inst 252) (n 1 0))\n', kind=SWITCH, regions=ends[2])
    # in a loop's body, which takes the out for its next lap, on either condition; on the out, which no case gives
    lines = region(nodes=' 0') + region(ins=OUT, nodes=' 1', out=' (n 1 0)') + ends[2]
    for start in START, NEVER:
        yield start + lines + GIVES + loop(1, ' (c 0)') + select([2, 3]) + EXIT
    yield START + lines + ends[3] + loop(1, ' (c 0)', '(n 1 0)') + select([2, 3]) + EXIT * 2
    # the loop stands in a case let off
    lines = region(ins=OUT, nodes=' 3', out=' (n 3 0)') + ends[4] + region(out=' (r 3 0)')
    yield beside([region(nodes=' 1 2'), GIVES], loop(3, ' (c 0)', '(r 3 0)') + EXIT + select([4, 5]) + EXIT, regions=lines)
    # two selects, the second by the first one's out
    yield beside([ENDS, GIVES], EXIT + select([3, 4], value='(n 0 0)') + EXIT, after=' 2', out=' (n 2 0)', regions=GIVES + ends[3])
    # behind an exit
    yield beside([ends[2], GIVES], EXIT * 2, before=' 1', out='')


def uses():
    """The out of a select with a case let off, or with all, is read afterwards."""
    for cases, nodes, last in ([ENDS, GIVES], EXIT, 2), ([ENDS, region(nodes=' 2')], EXIT * 2, 3):
        # by an op, a loop's init and condition, an exit, a select and its case
        after = {'after': f' {last}'}
        yield beside(cases, nodes + HOLDS, out=' (d 0)', more='(op 0 4 (inst 128) (n 0 0) (n 0 0))\n', **after)
        yield beside(cases, nodes + loop(3, ' (n 0 0)'), regions=region(ins=OUT, out=' (r 3 0)'), **after)
        yield beside(cases, nodes + loop(3, repeat='(n 0 0)'), out='', regions=EMPTY, **after)
        yield beside(cases, nodes + '(exit (inst 252) (n 0 0))\n', out='', **after)
        yield beside(cases, nodes + select([3, 4], value='(n 0 0)'), out=f' (n {last} 0)', regions=region(out=' (n 0 0)') + GIVES, **after)
        # by ctrl lines: a return, an exit, a value on a way, a selection
        for kind in 'return', '(exit (inst 252))':
            yield beside(cases, nodes, out='', more=way(0, kind, ins=' (n 0 0)'))
        ways = way(0, 'branch', [3], vals=' (3 (n 0 0))') + way(3, 'return', ins=' (r 3 0)')
        yield beside(cases, nodes, out='', regions=region(ins=OUT), more=ways)
        ways = way(0, 'bool', [3, 4], ins=' (n 0 0)') + way(3, 'return') + way(4, 'return')
        yield beside(cases, nodes, out='', regions=EMPTY * 2, more=ways)


def roots():
    """The select stands in a root, reached or not."""
    text = START + EMPTY + region(nodes=' 0') + region(nodes=' 1') + GIVES + select([2, 3]) + EXIT
    for ways in [
        way(0, 'branch', [1]) + way(1, 'return', ins=' (n 0 0)'),
        way(0, 'branch', [1]) + way(1, 'branch', [1]),
        way(0, 'return') + way(1, 'return', ins=' (n 0 0)'),
        way(0, 'return'),
    ]:
        yield text + ways


def as_before():
    """Accepted without a case let off: all outputs beside the exit, wherever it stands, or no outs; and a loop's body with all of its outputs."""
    given = region(nodes=' 1', out=' (c 0)')
    yield beside([given, GIVES], EXIT)
    yield beside([given], EXIT, kind=SWITCH)
    yield beside([given, region(nodes=' 2', out=' (c 0)')], EXIT * 2)
    yield beside([region(nodes=' 1 2', out=' (c 0)'), GIVES], EXIT + BLOCK)
    yield beside([region(nodes=' 1 2', out=' (d 0)'), GIVES], HOLDS + EXIT, more=OP)
    yield beside([ENDS, EMPTY], EXIT, outs='', out='')
    yield START + region(nodes=' 0') + region(ins=OUT, nodes=' 1', out=' (r 1 0)') + loop(1, ' (c 0)') + EXIT


def refused():
    """Refusal 6: what is nearly a case let off."""
    two, three = region(nodes=' 2'), region(nodes=' 3')
    for held, nodes, regions, more in [
        # the exit is not last, or only by its number
        (' 1 2', EXIT + BLOCK, '', ''),
        (' 1 2', EXIT + HOLDS, '', OP),
        (' 1 2 3', EXIT * 2 + BLOCK, '', ''),
        (' 2 1', BLOCK + EXIT, '', ''),
        (' 1 2', EXIT + loop(3), EMPTY, ''),
        (' 1 2', EXIT + select([3], '', kind=SWITCH), EMPTY, ''),
        # there is none, but an op of that opcode, a block, nothing
        (' 1', HOLDS, '', '(op 0 0 (inst 252))\n'),
        (' 1', BLOCK, '', ''),
        ('', '', '', ''),
        # a select whose cases all exit, behind an exit too; one with a case that does; one whose case is let off
        (' 1', select([3], '', kind=SWITCH) + EXIT, two, ''),
        (' 1', select([3, 4], '') + EXIT * 2, two + three, ''),
        (' 1 2', EXIT + select([3], '', kind=SWITCH) + EXIT, three, ''),
        (' 1', select([3, 4], '') + EXIT, two + EMPTY, ''),
        (' 1', select([3], kind=SWITCH) + EXIT, two, ''),
        # a loop whose body exits, behind an exit too
        (' 1', loop(3) + EXIT, two, ''),
        (' 1 2', EXIT + loop(3) + EXIT, three, ''),
    ]:
        yield beside([region(nodes=held), GIVES], nodes, regions=regions, more=more)
    # a loop that never ends
    yield beside([ENDS, GIVES], loop(3), regions=EMPTY, start=NEVER)
    # fewer outputs but not none; more; some beside a select without outs
    for count, outs in (1, 2), (1, 3), (2, 3), (2, 1), (3, 2):
        given = region(nodes=' 1', out=' (c 0)' * count)
        yield beside([given, region(out=' (c 0)' * outs)], EXIT, outs=OUT * outs)
        yield beside([given], EXIT, kind=SWITCH, outs=OUT * outs)
    for count in 1, 2:
        yield beside([region(nodes=' 1', out=' (c 0)' * count), EMPTY], EXIT, outs='', out='')
    # a case with an input: without outputs, with all, beside a select without outs
    yield beside([region(ins=OUT, nodes=' 1'), GIVES], EXIT)
    yield beside([region(ins=OUT, nodes=' 1', out=' (c 0)'), GIVES], EXIT)
    yield beside([region(ins=OUT, nodes=' 1'), EMPTY], EXIT, outs='', out='')
    # a loop's body that ends in an exit: without outputs, with too few, with too many; too few inits and too many
    for inits, inputs, outputs in (1, 1, 0), (2, 2, 0), (2, 2, 1), (0, 0, 1), (0, 1, 0), (1, 0, 0):
        body = region(ins=OUT * inputs, nodes=' 1', out=' (c 0)' * outputs)
        yield START + region(nodes=' 0') + body + loop(1, ' (c 0)' * inits) + EXIT
    # behind an exit, and in a root that is not reached
    yield beside([region(nodes=' 2 3'), GIVES], EXIT * 2 + BLOCK, before=' 1', out='')
    yield START + EMPTY + region(nodes=' 0') + EMPTY + GIVES + select([2, 3]) + way(0, 'return')


def refused_beside():
    """Refusal 6 beside a case let off, which lets off no other."""
    for other in EMPTY, GIVES, region(out=' (c 0) (c 0) (c 0)'):
        yield beside([ENDS, other], EXIT, outs=OUT * 2)
        yield beside([other, ENDS], EXIT, outs=OUT * 2)
    yield beside([ENDS, EMPTY, region(nodes=' 2')], EXIT * 2, kind=SWITCH)
    # another select's case; two outputs of region 0; one case and three by `bool`
    yield beside([ENDS, GIVES], EXIT + select([3], kind=SWITCH), after=' 2', regions=EMPTY)
    yield beside([ENDS, GIVES], EXIT, out=' (n 0 0) (n 0 0)')
    yield beside([ENDS], EXIT)
    yield beside([ENDS, GIVES, GIVES], EXIT)


# A case let off, and one that isn't, as its exit is not last.
GOOD = [ENDS, GIVES], EXIT
NEAR = [region(nodes=' 1 2'), GIVES], EXIT + BLOCK


def earlier():
    """Refusals that come before 6, beside a case let off and beside one that isn't."""
    for text in beside(*GOOD), beside(*NEAR):
        # a bracket is missing at the end
        yield text[:-2] + '\n', 2
        # over 128 nodes; over 512 inputs and outs
        yield text + BLOCK * 129, 3
        yield text.replace(f'(outs{OUT})', f'(outs{OUT * 513})'), 3
        # a value that names nothing; an out that isn't there; a const id twice; an opcode of the table
        yield text.replace('(exit (inst 252))', '(exit (inst 252) (c 1))'), 4
        yield text.replace('(n 0 0)', '(n 0 1)'), 4
        yield text.replace(CONST, CONST * 2), 4
        yield text.replace('252', '253'), 4
        # a node that stands nowhere; a region that is no child; a child of two places
        yield text + BLOCK, 5
        yield text.replace('(select', EMPTY + '(select'), 5
        yield text.replace('(cases 1 2)', '(cases 1 1)'), 5


def later():
    """Refusals that come after 6: beside a case let off they stand, and beside one that isn't 6 does."""
    for case, number in (GOOD, 0), (NEAR, 6):
        # a line on the case; one too many; one that is missing
        end = way(0, 'return')
        yield FIRST, beside(*case, out='', more=end + way(1, 'return')), number or 7
        yield FIRST, beside(*case, out='', more=end * 2), number or 7
        yield FIRST, beside(*case, out='', regions=EMPTY, more=way(0, 'branch', [3])), number or 7
        # two equal targets, reached and not
        yield FIRST, beside(*case, out='', regions=EMPTY, more=way(0, 'bool', [3, 3]) + way(3, 'return')), number or 13
        yield FIRST, beside(*case, out='', regions=EMPTY, more=end + way(3, 'bool', [3, 3])), number or 13
        # the first id is 0, is the text's highest, and too high
        for first in 0, 5, HIGHEST_ID:
            yield first, beside(*case), number or 9
    # the result of an op behind an exit; with a first id of 0 as well
    good = beside([region(nodes=' 1 2 3'), GIVES], EXIT + HOLDS + EXIT, out=' (d 0)', more=OP)
    near = beside([region(nodes=' 1 2'), GIVES], EXIT + HOLDS, out=' (d 0)', more=OP)
    yield FIRST, good, 10
    yield 0, good, 9
    yield FIRST, near, 6
    yield 0, near, 6


def ended():
    """First id, text, and the number by which `lift` refuses it or 0."""
    for source in some_and_all, contents, nested, uses, roots:
        for text in source():
            assert let_off(text.encode())
            yield FIRST, text, 0
    for source, number in (as_before, 0), (refused, 6), (refused_beside, 6):
        for text in source():
            yield FIRST, text, number
    for text, number in earlier():
        yield FIRST, text, number
    yield from later()


def too_long(*behind):
    """A list that is too long, and a case that holds an exit and the nodes behind it."""
    held = numbers(range(122, 123 + len(behind)))
    return long_list(held=' 121', regions=region(nodes=held) + GIVES, nodes=select([121, 122]) + EXIT + ''.join(behind))

"""The eight texts whose lifting is timed, and whose stack is measured."""
from batch import stored
from texts import EMPTY, HEAD, SWITCH

LISTING = b'''(func 0 2 3 0)
(const 5 43)
(region (in) (nodes 0) (out))
(block 0)
(op 0 4 (inst 128) (c 0) (c 0))
'''


def roots(count):
    """Each root has a block of four ops and goes to the next two, which take a value each; the last but one, whose next two are one, goes there by
    an instruction, as `bool` may not; the last returns."""
    lines = ['(func 0 2 3 0)', '(const 5 43)', '(const 6 43)', '(region (in) (nodes 0) (out))']
    lines += [f'(region (in (0 4)) (nodes {i}) (out))' for i in range(1, count)]
    lines += ['(block ' + ' '.join(str(4 * i + k) for k in range(4)) + ')' for i in range(count)]
    for i in range(count):
        value = f'(r {i} 0)' if i else '(c 1)'
        lines += [f'(op 0 4 (inst 128) {value} (c 0))']
        lines += [f'(op 0 4 (inst 128) (d {4 * i + k}) (c 1))' for k in range(3)]
    for i in range(count - 1):
        near, far = i + 1, min(i + 2, count - 1)
        vals = f'({near} (c 1))' + (f' ({far} (d {4 * i}))' if far != near else '')
        kind = 'bool' if far != near else SWITCH
        lines += [f'(ctrl {i} 0 {kind} (ins (d {4 * i + 3})) (to {near} {far}) (vals {vals}))']
    lines += [f'(ctrl {count - 1} 0 return (ins) (to) (vals))']
    return '\n'.join(lines + ['']).encode()


def consts(count):
    return (HEAD + ''.join(f'(const {5 + i} 43)\n' for i in range(count)) + EMPTY).encode()


def equal(targets, phis):
    """Region 0 goes to region 1 by every target, with a value for each of its inputs."""
    lines = ['(func 0 2 3 0)', '(const 5 43)', '(region (in) (nodes) (out))']
    lines += ['(region (in ' + ' '.join(['(0 4)'] * phis) + ') (nodes) (out))']
    lines += [f'(ctrl 0 0 {SWITCH} (ins (c 0)) (to ' + ' '.join(['1'] * targets) + ') (vals (1 ' + ' '.join(['(c 0)'] * phis) + ')))']
    lines += ['(ctrl 1 0 return (ins) (to) (vals))']
    return '\n'.join(lines + ['']).encode()


def chosen():
    """The texts by a short name, with what the page calls them."""
    loops = max((case.input for case in stored('blocks')), key=lambda text: (text.count(b'(loop '), len(text)))
    long = max((case.input for case in stored('read') if case.answer == b'accepted\n'), key=len)
    return {
        'imported': ('an imported function', (HEAD + '(imported)\n').encode()),
        'body': ('a body without nodes', (HEAD + EMPTY).encode()),
        'listing': ('the listing', LISTING),
        'loops': ('127 loops in each other', loops),
        'roots': ('120 roots with four ops each', roots(120)),
        'ops': ('512 ops in one block', long),
        'consts': ('256 constants', consts(256)),
        'equal': ('512 equal targets, 500 phis', equal(512, 500)),
    }

"""The stored cases of `read`: texts with the answers that document 01 gives them.

Of the vectors (a folder with cases.batch and answers.batch: inputs of the program `lift`, a line `(first N)` and the text, and what `lift` prints for each; and
alike requests/lift.cases.batch and requests/lift.answers.batch) the texts are taken; where one is refused by 1 to 7 or 13 that is the answer, and every other
text is accepted by the reader. An input with a bad first line holds no text, and a text is taken once.

To these come texts made here: texts of as many bytes as there may be, one more and many more, each limit of refusal 3 at its number and one over, and long lists
that 3 doesn't bound, also with a form error at the very end and with a bad reference in the last element; and the texts of labels.py, ended.py and controls.py,
about equal targets, cases that end in an exit and control numbers.
"""
import re

import controls, ended, labels
from batch import READER, Case
from texts import CONST, EMPTY, HEAD, RETURN, SWITCH, items, loop, region, select
from vectors import vectors

MOST_BYTES = 32768
LONG_BYTES = 40000
OK = 'accepted'


def body(nodes):
    return region(nodes=items('{}', nodes))


def op(attrs=0, imms='', values=''):
    return f'(op {attrs} 0 (inst 1{imms}){values})\n'


def block(ops):
    return f"(block{items('{}', ops)})\n"


def start(consts=CONST):
    return HEAD + consts


# Each limit of refusal 3, as texts with so many of a kind that nothing else refuses.


def regions(n):
    """Cases of one select."""
    return start() + body(1) + EMPTY * (n - 1) + select(range(1, n), kind=SWITCH)


def roots(n):
    """Regions in a row, each with a way to the next."""
    ways = ''.join(f'(ctrl {i} 0 branch (ins) (to {i + 1}) (vals))\n' for i in range(n - 1))
    return start() + EMPTY * n + ways + f'(ctrl {n - 1} 0 return (ins) (to) (vals))\n'


def nested(n):
    """Regions that are loops' bodies in each other."""
    lines = ''.join(region(nodes=f' {i}') for i in range(n - 1))
    return start() + lines + EMPTY + ''.join(map(loop, range(1, n)))


def nodes(n):
    return start() + body(n) + '(block)\n' * n


def ops(n):
    return start() + body(1) + block(n) + op() * n


def consts(n):
    return start(''.join(f'(const {100 + i} 43)\n' for i in range(n))) + EMPTY


def params(n):
    return start() + '(param 0 2)\n' * n + region(ins=items('(0 2)', n))


def imported_params(n):
    return start() + '(param 0 2)\n' * n + '(imported)\n'


def values(n):
    """In every place where a value may stand."""
    return (
        start()
        + region(nodes=' 0 1 2 3')
        + region(ins=' (0 2)', out=' (r 1 0)')
        + region(out=' (c 0)')
        + region(ins=' (0 2)')
        + loop(1, ' (c 0)')
        + select([2], ' (0 2)', SWITCH)
        + '(block 0)\n(exit (inst 252) (c 0))\n'
        + op(values=items('(c 0)', n - 10) + ' (n 1 0)')
        + '(ctrl 0 0 (inst 251) (ins (c 0)) (to 3) (vals (3 (c 0))))\n(ctrl 3 0 return (ins (r 3 0)) (to) (vals))\n'
    )


def inputs_and_outs(n):
    """Inputs of a loop's body and of a root to which no way leads, and outs of a select."""
    return (
        start()
        + region(nodes=' 0 1')
        + region(ins=items('(0 2)', 4), out=items('(c 0)', 4))
        + region(out=items('(c 0)', 4))
        + region(ins=items('(0 2)', n - 8))
        + loop(1, items('(c 0)', 4))
        + select([2], items('(0 2)', 4), SWITCH)
        + '(ctrl 0 0 return (ins) (to) (vals))\n'
    )


def immediates(n):
    """In every place where an INST may stand."""
    one, rest = items('(0 5 7)', 100), items('(0 5 7)', n - 400)
    return (
        start()
        + region(nodes=' 0 1 2')
        + EMPTY * 2
        + select([1], kind=f'(inst 251{one})')
        + f'(block 0)\n(exit (inst 252{one}))\n'
        + op(imms=one)
        + f'(ctrl 0 0 (inst 251{one}) (ins (c 0)) (to 2) (vals))\n(ctrl 2 0 (exit (inst 252{rest})) (ins) (to) (vals))\n'
    )


def targets(n):
    """Of two ctrl lines."""
    one, rest = ' 1' * 256, ' 2' * (n - 256)
    line = '(ctrl {} 0 (inst 251) (ins (c 0)) (to{}) (vals))\n'
    return start() + EMPTY * 3 + line.format(0, one) + line.format(1, rest) + '(ctrl 2 0 return (ins) (to) (vals))\n'


LIMITS = [
    (128, regions),
    (128, nodes),
    (512, ops),
    (256, consts),
    (64, params),
    (64, imported_params),
    (2048, values),
    (512, inputs_and_outs),
    (512, immediates),
    (512, targets),
]


def limits():
    for most, make in LIMITS:
        yield make(most), OK
        yield make(most + 1), 3
    # the longest ways and the deepest tree
    yield roots(128), OK
    yield nested(128), OK
    # a bad reference isn't looked at over a limit
    yield start() + EMPTY + '(block)\n' * 128 + '(block 0)\n', 3


# As many bytes as there may be.


def full(count):
    """An accepted text of so many bytes: the attributes of its ops have as many digits as are needed."""
    def text(attrs):
        imms = [' (0 5 0)'] * 500 + [''] * 12
        return (
            start(''.join(f'(const {1000 + i} 43)\n' for i in range(256)))
            + body(1)
            + block(512)
            + ''.join(op(a, i, ' (c 0) (c 0) (c 0)') for a, i in zip(attrs, imms))
        )

    attrs = [0] * 512
    missing = count - len(text(attrs))
    for i in range(512):
        # up to ten digits, one of which is there
        more = min(missing, 9)
        attrs[i] = 10 ** more if more else 0
        missing -= more
    made = text(attrs)
    assert len(made) == count
    return made


def cut_off(text):
    """Without the last bracket."""
    return text[:-2] + '\n'


def unclosed(count):
    """A text of so many bytes with one list of some 16,000 numbers, and a bracket that is missing at the very end."""
    before, after = start() + body(1) + '(block', ')\n' + cut_off(op())
    times, rest = divmod(count - len(before) - len(after), len(' 0'))
    # a number of two digits where the count asks for it
    return before + ' 0' * (times - rest) + ' 10' * rest + after


def sizes():
    yield full(MOST_BYTES), OK
    yield full(MOST_BYTES + 1), 1
    # a whole text with more behind it: what is cut off must not make it one that is accepted
    yield full(MOST_BYTES) + '\n', 1
    yield full(MOST_BYTES) + 'x' * (LONG_BYTES - MOST_BYTES - 1) + '\n', 1
    yield unclosed(MOST_BYTES), 2


# Lists that refusal 3 doesn't bound: as they are, with a form error at the very end, and with a bad reference in the last element.


def long_lists():
    # an op doesn't stand once, nor a node
    zeros = ' 0' * 15000
    yield start() + body(1) + f'(block{zeros})\n' + op(), 5
    yield start() + region(nodes=zeros + ' 1') + '(block)\n', 4
    # values twice for a target
    before, after = start() + EMPTY * 2 + '(ctrl 0 0 branch (ins) (to 1) (vals' + ' (1)' * 7900, '))\n' + RETURN
    yield before + after, 7
    yield before + cut_off(after), 2
    yield before + ' (2)' + after, 4
    # ctrl twice for a region
    ways = start() + EMPTY + '(ctrl 0 0 return (ins) (to) (vals))\n' * 880
    yield ways, 7
    yield cut_off(ways), 2
    yield ways + RETURN, 4
    # over 128 nodes
    blocks = start() + EMPTY + '(block)\n' * 4000
    yield blocks, 3
    yield cut_off(blocks), 2


# Where a batch is cut: lines that are nearly `%%`, and the empty text.


def cuts():
    for text in ['', '\n', '%\n', '%%%\n', ' %%\n', '%% \n', '%\n%\n', '(%%\n', HEAD + '%%)\n', '%%\0\n']:
        yield text, 2
    yield start() + EMPTY, OK


# Equal targets, cases that end in an exit, and control numbers.


def read(number):
    """The reader's answer where `lift` refuses by this number, or by none if it is 0."""
    return number if number in READER else OK


def equal_targets():
    for _, text, number in labels.labels():
        yield text, read(number)
    yield labels.too_long('bool'), 13
    yield labels.too_long(SWITCH), OK


def ended_cases():
    for _, text, number in ended.ended():
        yield text, read(number)
    yield ended.too_long(), OK
    yield ended.too_long(ended.BLOCK), 6


def control_numbers():
    for _, text, number in controls.controls():
        yield text, read(number)
    yield controls.too_long(2), OK
    yield controls.too_long(3), 4


def given(folder):
    """The texts of the vectors, with their answers."""
    for case, answer in vectors(folder):
        first = re.match(rb'\(first (0|[1-9][0-9]*)\)\n', case)
        if first and int(first[1]) < 2 ** 32:
            refused = re.fullmatch(rb'\(refused ([0-9]+)\)\n', answer)
            # one character for each byte
            yield case[first.end():].decode('latin-1'), read(int(refused[1]) if refused else 0)


def read_cases(folder):
    """The cases, with the vectors of a folder."""
    kept = {}
    sources = [('vectors', given(folder)), ('cuts', cuts()), ('limits', limits()), ('sizes', sizes()), ('long lists', long_lists())]
    sources += [('equal targets', equal_targets()), ('ended cases', ended_cases()), ('control numbers', control_numbers())]
    for about, source in sources:
        count = 0
        for text, answer in source:
            assert kept.get(text, (about, answer))[1] == answer
            if text not in kept:
                count += 1
                kept[text] = f'{about} {count}', answer
    return [Case('read', about, text.encode('latin-1'), f'{answer}\n'.encode()) for text, (about, answer) in kept.items()]

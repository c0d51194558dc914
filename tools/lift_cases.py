"""The stored cases of `lift`: inputs with their lists or refusals.

The inputs, each once, are the oracle's fixed list (oracle/fixed) with its answers; the vectors with theirs; the rows of Starred.antt; the texts of labels.py,
ended.py and controls.py, about equal targets, cases that end in an exit and control numbers; and the items of 'To the testers' that carry no star, texts of
32,768 and 32,769 bytes and of 128 and 129 regions, and texts of 40,000 bytes, which are among the cases of `read`. Of rows, texts and items what is refused keeps
its number, and for the others the answer is the list that the Rust gives (`oracle`), with the control numbers of merges, for which the Rust writes 0, as the
reference has them (`refer`); those of controls.py are said there. The texts of many bytes come also behind the longest first lines, of 9 and 10 digits; a first
id so high is refusal 9 where the text itself is accepted. The reference must give every answer too.
"""
import os, re

import controls, ended, labels
from batch import FIXED, Case, lifted_by_rust, read, referred, split
from texts import SWITCH
from vectors import rows, vectors

FIRST = b'(first 1000000)\n'
# too high for any id, and as long as a first line can be
LONG_FIRSTS = [b'(first 999999999)\n', b'(first 1000000000)\n']
BYTES = 32768, 32769, 40000
# The control number of a merge.
CONTROL = re.compile(rb'^\((?:246|247) .* \(imms \(0 [0-9]+ ([0-9]+)\)\) ', re.MULTILINE)
# What stands for a list until the Rust has given it.
LIST = b'accepted\n'


def refused(number):
    return b'(refused %d)\n' % number if number else LIST


def numbered(cases):
    """The inputs of first ids and texts, each with its refusal or `LIST`."""
    for first, text, number in cases:
        yield f'(first {first})\n{text}'.encode(), refused(number)


def refused_before_11():
    """A text with equal `bool` targets, one with a case that is not let off and one with a control number that is too high, whose lists would be too
    long, as they are with an instruction for `bool`, with the case let off and with a lower number. These three aren't stored: the prover would have to
    compute their whole lists (check-answers)."""
    long = [labels.too_long(SWITCH), ended.too_long(), controls.too_long(2)]
    assert referred([FIRST + text.encode() for text in long]) == [refused(11)] * len(long)
    yield FIRST + labels.too_long('bool').encode(), refused(13)
    yield FIRST + ended.too_long(ended.BLOCK).encode(), refused(6)
    yield FIRST + controls.too_long(3).encode(), refused(4)


def bounds(read):
    """The cases of `read` at the bounds of bytes and of regions, with a first id, and the reader's answers or refusal 9."""
    for case in read:
        answer = LIST if case.answer == LIST else refused(int(case.answer))
        if len(case.input) in BYTES or case.input.count(b'(region ') in (128, 129):
            yield FIRST + case.input, answer
        if len(case.input) in BYTES:
            for first in LONG_FIRSTS:
                yield first + case.input, refused(9) if answer == LIST else answer


def numbers_hold():
    """Whether the lists of controls.py have the numbers that are said there."""
    texts, wanted = zip(*controls.accepted())
    lists = referred([FIRST + text.encode() for text in texts])
    return [[int(number) for number in CONTROL.findall(answer)] for answer in lists] == [*wanted]


def lift_cases(folder, read_before):
    """The cases, with the vectors of a folder and beside the cases of `read`."""
    fixed = zip(*(split(read(os.path.join(FIXED, name))) for name in ['cases.batch', 'answers.batch']), strict=True)
    sources = [('fixed list', fixed), ('vectors', vectors(folder)), ('rows', numbered(rows()))]
    sources += [(about, numbered(cases)) for about, cases in [('equal targets', labels.labels()), ('ended cases', ended.ended()), ('control numbers', controls.controls())]]
    kept = {}
    for about, source in [*sources, ('refused before 11', refused_before_11()), ('bounds', bounds(read_before))]:
        count = 0
        for given, answer in source:
            if given not in kept:
                count += 1
                kept[given] = f'{about} {count}', answer
    lists = [given for given, (_, answer) in kept.items() if answer == LIST]
    ours = referred(lists)
    assert referred(lists, '--cleared') == lifted_by_rust(lists) and numbers_hold()
    listed = dict(zip(lists, ours, strict=True))
    cases = [Case('lift', about, given, listed.get(given, answer)) for given, (about, answer) in kept.items()]
    assert referred([case.input for case in cases]) == [case.answer for case in cases]
    return cases

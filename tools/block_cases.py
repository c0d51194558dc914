"""The stored cases of `blocks`: texts with their kept blocks, which the plain reference gives (`refer --blocks`).

The texts are the rows of Starred.antt, those of the vectors, labels.py, ended.py and controls.py that 1 to 7 let pass, texts made here, generated ones of fixed
seeds and those of many bytes among the cases of `read`, each once. What is refused and by which number is said here. `check-blocks` compares the answers with
the lists.
"""
import itertools, re

from batch import FIRST, READER, Case, generated_texts, joined, kept_blocks
from controls import controls
from ended import ended
from labels import labels
from texts import EMPTY, HEAD, SWITCH, way
from trees import CONSTS, EXIT, RETURN, block, graph, loop, select, tree
from vectors import equal_targets, rows, vectors

MOST_BYTES = 700_000
BOOL = select([], [], kind='bool')

# Nodes behind an exit, whose end is dropped.


def exits():
    kinds = [block(), block(2), EXIT, loop(), loop(repeat='(c 1)'), loop(inputs=1), BOOL, select([]), select([], [], outs=1)]
    for one in kinds:
        yield tree(EXIT, one)
        yield tree(block(1), EXIT, one, block(1))
        yield tree(loop(EXIT, one))
        yield tree(select([EXIT, one], []))
        yield tree(select([one, EXIT], [EXIT]), EXIT, one, backwards=True)
    for one, other in itertools.product(kinds[:5], repeat=2):
        yield tree(EXIT, one, other)
        yield tree(one, EXIT, other)
    # loops and selects behind an exit, with exits in them
    for repeat in ['(c 0)', '(c 1)']:
        yield tree(EXIT, loop(EXIT, repeat=repeat))
        yield tree(EXIT, loop(loop(repeat=repeat), EXIT, block(1)), block(1))
    yield tree(select([EXIT], [EXIT]), block(1))
    yield tree(EXIT, select([EXIT], [loop(EXIT), block(1)]), loop(BOOL, EXIT))
    yield tree(*[EXIT] * 5)


# Selects and loops in each other, to depth 4.


def nested(word, around, at, values, repeat):
    """The nodes that hold the word's kinds in each other."""
    nodes = [block(1)]
    for place, kind in reversed(list(enumerate(word))):
        if kind == 'loop':
            one = loop(*nodes, repeat=repeat, inputs=values)
        else:
            cases = [[], []]
            cases[(at + place) % 2] = nodes
            one = select(*cases, kind='bool', outs=values)
        nodes = [*around, one, *around]
    return nodes


def nests():
    for depth in range(1, 5):
        for word in itertools.product(['select', 'loop'], repeat=depth):
            yield tree(*nested(word, [], 0, 0, '(c 0)'))
            yield tree(*nested(word, [], 1, 1, '(c 1)'), backwards=True)
            yield tree(*nested(word, [block(1)], 1, 0, '(c 2)'))
    for word in itertools.product(['select', 'loop'], repeat=2):
        yield tree(*nested(word, [BOOL], 0, 1, '(c 0)'))
        yield tree(*nested(word, [loop()], 1, 0, '(c 1)'), backwards=True)


# The deepest trees, the widest one, and long rows.


def depths():
    # 128 regions and 128 nodes in each other: as many points as there may be
    loops, both = block(1), block(1)
    for i in range(127):
        loops = loop(loops)
        both = loop(both, repeat='(c 1)') if i % 2 else select([both])
    yield tree(loops)
    yield tree(both)
    yield tree(*[block()] * 128)
    yield tree(*[loop()] * 40)
    yield tree(select(*[[]] * 127))
    yield tree(*[BOOL] * 40, backwards=True)


# Loops' conditions.


def conditions():
    for const in range(4):
        for inputs in [0, 2]:
            for around in [[], [block(1)]]:
                yield tree(*around, loop(*around, repeat=f'(c {const})', inputs=inputs), *around)
    # the result of an op, the output of a select, a parameter, the body's own input
    yield tree(block(1), loop(repeat='(d 0)'))
    yield tree(select([], [], kind='bool', outs=1), loop(repeat='(n 0 0)'))
    yield tree(loop(repeat='(r 0 0)'), params=1)
    yield tree(loop(repeat='(r 1 0)', inputs=1))
    yield tree(loop(loop(repeat='(c 1)'), repeat='(c 2)'), loop(loop(repeat='(c 2)'), repeat='(c 1)'))


# Graphs of ctrl lines.


def fork(one, other):
    """A way to two roots by `bool`, or to one twice by an instruction, as `bool` may not go there."""
    return SWITCH if one == other else 'bool', [one, other]


def graphs():
    some = [lambda root: [], lambda root: [block(1)], lambda root: [BOOL] if root % 2 else [loop(block(1)), EXIT]]
    ones = [lambda root: 0, lambda root: root % 2]
    for held, inputs in itertools.product(some, ones):
        for ways in [
            # repeated targets; by `bool` they are refused
            [(SWITCH, [1, 1]), RETURN],
            [('bool', [1, 1]), RETURN],
            [(SWITCH, [1, 2, 1, 2, 2]), ('branch', [2]), RETURN],
            [(SWITCH, [2, 1, 1]), (SWITCH, [2, 2]), ('(exit (inst 252))', [])],
            [(SWITCH, [2, 1, 1]), ('bool', [2, 2]), ('(exit (inst 252))', [])],
            # shared joins
            [('bool', [1, 2]), ('branch', [3]), ('branch', [3]), RETURN],
            [('bool', [2, 1]), ('branch', [3]), ('branch', [3]), ('branch', [4]), RETURN],
            [(SWITCH, [1, 2, 3]), ('branch', [4]), ('branch', [4]), ('branch', [4]), ('bool', [5, 6]), ('branch', [6]), RETURN],
            # ways back, and a root that leads to itself
            [('branch', [1]), ('bool', [1, 2]), RETURN],
            [('branch', [1]), ('branch', [1])],
            [('branch', [2]), ('bool', [2, 3]), ('branch', [1]), ('unreachable', [])],
            [('bool', [1, 2]), ('branch', [2]), ('branch', [1])],
            # roots that no way reaches don't count
            [('branch', [1]), RETURN, ('branch', [1]), (SWITCH, [2, 1])],
            [RETURN, RETURN],
            # attributes keep a branch from absorbing
            [('branch', [1], 7), ('branch', [2], 0), RETURN],
        ]:
            yield graph(ways, held, inputs)
    # entries with no values
    for vals in ['', ' (1)']:
        yield HEAD + EMPTY * 3 + way(0, 'branch', [1], vals=vals) + way(1, 'branch', [2]) + way(2, 'return')
        yield HEAD + CONSTS + EMPTY * 3 + way(0, SWITCH, [1], vals=vals) + way(1, 'branch', [2]) + way(2, 'return')


def many_roots(count=120):
    last = count - 1
    until = range(last)
    yield graph([('branch', [i + 1]) for i in until] + [RETURN])
    # by numbers that run against the way
    yield graph([('branch', [last])] + [RETURN] + [('branch', [i]) for i in range(1, last)])
    # joins of two ways, of all ways, and ways back
    yield graph([fork(i + 1, min(i + 2, last)) for i in until] + [RETURN], inputs=lambda root: root % 3 // 2)
    joined_by_all = [(SWITCH, range(1, count))] + [('branch', [last])] * (count - 2) + [RETURN]
    yield graph(joined_by_all, held=lambda root: [block(1)] if root % 40 == 3 else [])
    yield graph([fork(i + 1, max(i - 1, 1)) for i in until] + [RETURN])
    # targets far off, each at least twice
    yield graph([(SWITCH, [i * 37 % last + 1, i + 1, i * 37 % last + 1]) for i in until] + [RETURN])
    # a tree whose leaves join, every second by a branch with attributes
    half = count // 2
    forks = [fork(2 * i + 1, min(2 * i + 2, last)) for i in range(half)]
    yield graph(forks + [('branch', [last], i % 2) for i in range(half - 1)] + [RETURN])


# No blocks.


def imported():
    yield HEAD + '(imported)\n'
    yield HEAD + CONSTS + '(param 0 4)\n(param 9 4)\n(imported)\n'


def refused():
    body = HEAD + '(region (in) (nodes{}) (out))\n'
    yield '', 2
    yield HEAD, 2
    yield body.format(' 0') + '(block\n', 2
    yield body.format(' 0') + CONSTS + '(block)\n', 2
    yield body.format(' 0') + '(select bool (e 0) (cases) (outs) 0)\n', 2
    yield body.format('') + '(block)\n' * 129, 3
    yield body.format(' 1') + '(block)\n', 4
    yield body.format(' 0') + '(loop 0 (c 0) (init) 0)\n', 4
    yield body.format('') + '(block)\n', 5
    yield body.format('') + EMPTY, 5
    yield HEAD + '(param 0 4)\n' + EMPTY, 6
    yield HEAD + CONSTS + '(region (in) (nodes 0) (out))\n' + EMPTY + '(select bool (c 0) (cases 1) (outs) 0)\n', 6
    yield HEAD + EMPTY * 2 + way(0, 'branch', [1]), 7
    yield HEAD + EMPTY * 2 + way(0, 'branch', [0]) + way(1, 'return'), 7


def by_reader(cases):
    """The texts, each with the number by which the reader refuses it or 0."""
    return ((text, number if number in READER else 0) for _, text, number in cases)


def with_blocks(cases):
    """Those that 1 to 7 let pass."""
    return by_reader(case for case in cases if case[2] not in range(1, 8))


def sizes(read):
    """Texts of as many bytes as there may be and of more, from the cases of `read`."""
    for case in read:
        if len(case.input) in (32768, 32769, 40000):
            yield case.input.decode(), 0 if case.answer == b'accepted\n' else int(case.answer)


def given(folder):
    """The texts of the vectors that 1 to 7 let pass."""
    for case, answer in vectors(folder):
        if not re.fullmatch(rb'\(refused [1-7]\)\n', answer):
            yield re.sub(FIRST, b'', case, count=1).decode()


def random():
    """Some generated texts: the first of some kinds, and some of the many small ones."""
    for kind, count in [('structured', 9), ('unstructured', 9), ('mixed', 5), ('wild', 9), ('ended', 9), ('big', 1)]:
        yield from generated_texts(kind, 11, count)
    for kind, step in [('skeletons', 311), ('graphs', 5011)]:
        yield from generated_texts(kind)[::step]


def block_cases(folder, read):
    """The cases, with the vectors of a folder and beside the cases of `read`."""
    sources = [
        ('vectors', given(folder)),
        ('behind an exit', exits()),
        ('nested', nests()),
        ('deep, long, wide', depths()),
        ('conditions', conditions()),
        ('graphs', graphs()),
        ('120 roots', many_roots()),
        ('generated', (text.decode() for text in random())),
        ('imported', imported()),
    ]
    # the number that refuses a text, 0 where none does; of those above only 13 may
    numbered = [('rows', by_reader(rows()))]
    numbered += [(about, ((text, 13 if equal_targets(text.encode()) else 0) for text in source)) for about, source in sources]
    numbered += [(about, with_blocks(cases)) for about, cases in [('equal targets', labels()), ('ended cases', ended()), ('control numbers', controls())]]
    kept = {}
    for about, source in [*numbered, ('refused', refused()), ('sizes', sizes(read))]:
        count = 0
        for text, number in source:
            assert kept.get(text, (about, number))[1] == number
            if text not in kept:
                count += 1
                kept[text] = f'{about} {count}', number
    texts = [text.encode() for text in kept]
    assert len(joined(texts)) < MOST_BYTES
    found = kept_blocks(texts)
    for text, (_, number), answer in zip(texts, kept.values(), found, strict=True):
        wanted = rb'\(refused %d\)\n' % number if number else rb'(\(block .*\n)*'
        assert re.fullmatch(wanted, answer), (text, number, answer)
    return [Case('blocks', about, text, answer) for text, (about, _), answer in zip(texts, kept.values(), found)]

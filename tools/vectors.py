"""What the tools share about cases given from outside: the sample vectors and the rows of Starred.antt."""
import os, re

from batch import ROOT, read, split

# No id above this one is given (document 02, W3).
HIGHEST_ID = 4194302
RESULTS = re.compile(rb'^\([0-9]+ [0-9]+ [0-9]+ ([0-9]+) ', re.MULTILINE)
# A `bool` ctrl line with two equal targets (document 02, W7), in a text that refusals 1 to 7 let pass.
EQUAL = re.compile(rb'^\(ctrl [0-9]+ [0-9]+ bool .* \(to ([0-9]+) \1\) \(vals', re.MULTILINE)
# A region's nodes and outputs, a node, and the cases of a select with outs, in a text that refusals 1 to 4 let pass.
REGION = re.compile(rb'^\(region .* \(nodes([ 0-9]*)\) \(out(.*)\)\)$', re.MULTILINE)
NODE = re.compile(rb'^\((?:block|select|loop|exit)\b.*$', re.MULTILINE)
SELECT = re.compile(rb'\(select .* \(cases([ 0-9]*)\) \(outs .+\) [0-9]+\)')
# A select or loop as document 01 has it, which ends in a list.
UNNUMBERED = re.compile(rb'^(\((?:select|loop) .*\))\)$', re.MULTILINE)
# The refusals that come before 13.
EARLIER = re.compile(rb'\(refused [1-8]\)\n')


def numbered(case):
    """A case of document 01 with the control number 0 on each select and loop (document 02, W4)."""
    return UNNUMBERED.sub(rb'\1 0)', case)


def equal_targets(text):
    """Whether refusal 13 is met by a text that 1 to 7 let pass."""
    return bool(EQUAL.search(text))


def let_off(text):
    """Whether a case has no outputs beside a select with outs, as it may if its last node is an exit (document 02, W2)."""
    regions, nodes = REGION.findall(text), NODE.findall(text)
    selects = filter(None, map(SELECT.fullmatch, nodes))
    cases = [regions[int(case)] for select in selects for case in select[1].split()]
    return any(held and not out and nodes[int(held.split()[-1])].startswith(b'(exit') for held, out in cases)


def answered(case, answer):
    """What an answer by document 01 becomes by the requests of document 02 that are in force. A control number of 0 changes none."""
    if EARLIER.fullmatch(answer):
        # where a case is let off the rest of the text would have to be judged anew, and no vector has one
        assert answer != b'(refused 6)\n' or not let_off(case)
        return answer
    if equal_targets(case):
        return b'(refused 13)\n'
    above = any(int(result) > HIGHEST_ID for result in RESULTS.findall(answer))
    return b'(refused 9)\n' if above else answer


def answered_batch(folder, start=''):
    """The inputs of a batch, each with the answer that the folder holds."""
    return zip(*(split(read(os.path.join(folder, start + name))) for name in ['cases.batch', 'answers.batch']), strict=True)


def vectors(folder):
    """The inputs of a folder's cases.batch, each with its answer; answers.batch holds document 01's. Then those of the folder `requests` in it, which have
    the requests in force."""
    cases = [(numbered(case), answer) for case, answer in answered_batch(folder)]
    return [(case, answered(case, answer)) for case, answer in cases] + [*answered_batch(os.path.join(folder, 'requests'), 'lift.')]


def rows():
    """The rows of Starred.antt: first id, text, and the number that refuses it or 0."""
    source = read(os.path.join(ROOT, 'crates', 'lifting', 'specs', 'Starred.antt')).decode()
    found = re.findall(r'\brow\s+"([^"]*)"\s+([0-9]+)\s+\((?:refuses ([0-9]+)|gives|blocks|pairs_of_phis)', source)
    assert len(found) == len(re.findall(r'\brow\s+"', source)) >= 12
    return [(int(first), text.replace('\\n', '\n'), int(number or 0)) for text, first, number in found]

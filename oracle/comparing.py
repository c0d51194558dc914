"""What the comparing scripts share: judging answers, and all that tools/batch.py has."""
import collections, os, sys

sys.path.insert(0, os.path.join(os.path.dirname(os.path.dirname(os.path.abspath(__file__))), 'tools'))
from batch import FIXED, ROOT, WHOLE_KINDS, build, generated, joined, lifted_by_rust, numbers, oracle, random_kinds, read, referred, split, stored, write


def as_refused(answer):
    """What document 01 answers where the Rust gives this: it refuses with 10 where the Rust panics."""
    return answer.replace(b'(panicked)', b'(refused 10)')


def ours_alone(answer):
    """Whether a refusal has no counterpart in the Rust."""
    return answer.startswith(b'(refused') and answer != b'(refused 10)\n'


def kind_of(answer):
    """A list, or the word of another answer."""
    text = answer.decode(errors='replace').strip()
    opcode = text[1:2]
    return 'a list' if opcode.isdigit() else text.split('\n')[0] or 'nothing'


def report(cases, pairs, first=3):
    """Counts pairs of (expected, given) answers and prints the first differences."""
    counts = collections.Counter()
    differences = []
    for case, (expected, given) in zip(cases, pairs):
        counts[kind_of(expected), kind_of(given), expected == given] += 1
        if expected != given:
            differences.append((case, expected, given))
    for (expected, given, same), count in sorted(counts.items()):
        verdict = 'equal' if same else 'DIFFERENT'
        print(f'  {count:8} expected {expected}, given {given}: {verdict}')
    for parts in sorted(differences, key=lambda d: len(d[0]))[:first]:
        for what, part in zip(['difference, input:', 'expected:', 'given:'], parts):
            print(what, part.decode(errors='replace'), sep='\n', end='')
    return len(differences)

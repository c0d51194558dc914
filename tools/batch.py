"""What the scripts share: batches, the stored cases, and running the programs, those of oracle/ too.

A batch is cases or answers, each ended by a line `%%`. The stored cases are those of the program `replay`: a line that names the command and says what the
case is about, then the command's input.
"""
import collections, os, re, subprocess, sys

ROOT = os.path.dirname(os.path.dirname(os.path.abspath(__file__)))
ORACLE = os.path.join(ROOT, 'oracle')
FIXED = os.path.join(ORACLE, 'fixed')
REPLAY = os.path.join(ROOT, 'crates', 'replay')
END = b'%%\n'
FIRST = rb'\(first (?:0|[1-9][0-9]*)\)\n'
# The kinds of the generator that have no seed.
WHOLE_KINDS = ['skeletons', 'graphs', 'limits']
# The refusals that the reader gives. The others ask for a first id, for blocks or for slices.
READER = {1, 2, 3, 4, 5, 6, 7, 13}
# The bytes in which a case's first line must end.
LINE = 128
Case = collections.namedtuple('Case', 'command about input answer')


def read(path):
    with open(path, 'rb') as file:
        return file.read()


def write(path, data):
    with open(path, 'wb') as file:
        file.write(data)


def split(batch):
    """The cases or answers of a batch."""
    parts = re.split(rb'(?m)^%%\n', batch)
    if parts.pop():
        sys.exit('a batch must end with a line %%')
    return parts


def crates():
    """The crates of crates.txt, in its order, each with the libraries that it uses."""
    listed = re.findall(r'^(\w+)[\w =+]*:(.*)$', read(os.path.join(ROOT, 'crates.txt')).decode(), re.M)
    return {crate: uses.split() for crate, uses in listed}


def sources(crate):
    """The paths of what is written of a crate: its code, definitions, laws and proofs, and not what rt makes in out/."""
    for part in ('src', 'specs', 'proofs'):
        for folder, folders, names in os.walk(os.path.join(ROOT, 'crates', crate, part)):
            folders.sort()
            yield from (os.path.join(folder, name) for name in sorted(names) if name.endswith(('.rt', '.antt')))


def joined(parts):
    return b''.join(part + END for part in parts)


def stored(command):
    """The stored cases of a command."""
    found = []
    for case, answer in zip(*(split(read(os.path.join(REPLAY, name))) for name in ['stdin', 'stdout']), strict=True):
        line, given = case.split(b'\n', 1)
        named, _, about = line.decode().partition(' ')
        if named == command:
            found.append(Case(named, about, given, answer))
    return found


def store(cases):
    """Writes the stored cases anew."""
    texts = [f'{case.command} {case.about}\n'.encode() + case.input for case in cases]
    assert split(joined(texts)) == texts and all(text.index(b'\n') < LINE for text in texts)
    write(os.path.join(REPLAY, 'stdin'), joined(texts))
    write(os.path.join(REPLAY, 'stdout'), joined(case.answer for case in cases))


def run(command, data=b'', **options):
    return subprocess.run(command, input=data, stdout=subprocess.PIPE, check=True, **options).stdout


def answers(command, cases, **options):
    """What a command that takes a batch prints for each of the cases."""
    found = split(run(command, joined(cases), **options))
    if len(found) != len(cases):
        sys.exit(f'{command}: {len(found)} answers for {len(cases)} cases')
    return found


def program(name):
    """A program of the repository, as `rt run` in its folder leaves it."""
    return os.path.join(ROOT, 'crates', name, 'out', name)


def replayed(command, inputs):
    """What `replay` prints for inputs of a command."""
    return answers([program('replay')], [command.encode() + b'\n' + given for given in inputs])


def build(*packages):
    """Builds programs of oracle/: the packages named, or all but what links the static library."""
    chosen = [part for package in packages for part in ('-p', package)]
    subprocess.run(['cargo', 'build', '--release', '--offline', '-q', '-j1', *chosen], cwd=ORACLE, check=True)


def oracle(name):
    """A program of oracle/, as `build` leaves it."""
    return os.path.join(ORACLE, 'target', 'release', name)


def random_kinds():
    """The kinds of the generator that have a seed."""
    return run([oracle('generate'), '--kinds']).decode().split()


def generated(kind, *numbers):
    """Generated inputs of `lift`."""
    return split(run([oracle('generate'), kind, *map(str, numbers)]))


def generated_texts(kind, *numbers):
    """Their texts; one whose first line was damaged is left out."""
    inputs = generated(kind, *numbers)
    starts = [re.match(FIRST, text) for text in inputs]
    return [text[start.end():] for text, start in zip(inputs, starts) if start]


def referred(inputs, *options):
    """What the plain reference prints for inputs of `lift`."""
    return answers([oracle('refer'), '--batch', *options], inputs)


def lifted_by_rust(inputs, *options):
    """What the Rust gives for inputs of `lift`."""
    return answers([oracle('oracle'), '--batch', *options], inputs)


def kept_blocks(texts):
    """The reference's kept blocks, or its refusal, for each text."""
    return referred(texts, '--blocks')


def numbers(words, *defaults):
    """The numbers of a command line, with what stands for those that are missing."""
    given = [int(word) for word in words[:len(defaults)]]
    return [*given, *defaults[len(given):]]

#!/usr/bin/env python3
"""Compares images that plans make with those of an independent model, on states that look random.

    ./compare.py MODEL [FIRST LAST]

MODEL is the folder of the model: its modules index (State, with add, drop, replace and train), image (image_of,
stands, probe, reads, fresh) and geom (inside). FIRST and LAST are the numbers of the first and the last run.

The program is kept here with .txt appended to each file's name, since the gate takes sources in crates/ alone. It is
built by `rt try`, without a proof, and run once for each number. It tells each change, the rows that it stores and
lets go, and what is found at some points.
"""
import pathlib
import shutil
import subprocess
import sys
import tempfile
import types

HERE = pathlib.Path(__file__).resolve().parent
TOP = HERE.parent.parent
sys.path.insert(0, str(TOP / 'bench'))
from listing import listed                      # noqa: E402

NAME = 'image_words'
USES = 'act_grid act_geom act_base act_super act_image act_probe'
SECONDS = '300'

# How many runs one build serves, since `rt try` ends after ten minutes.
PART = 6


def prepare(scratch):
    """Puts the program beside the crates that it stands on."""
    lines, wanted, text = listed(), USES.split(), ''
    for crate in wanted:
        if crate in lines and not (scratch / 'crates' / crate).exists():
            text += lines[crate][0] + '\n'
            wanted += lines[crate][1]
            shutil.copytree(TOP / 'crates' / crate, scratch / 'crates' / crate, ignore=shutil.ignore_patterns('out'))
    for kept in (HERE / NAME).rglob('*.txt'):
        to = scratch / 'crates' / NAME / kept.relative_to(HERE / NAME).with_suffix('')
        to.parent.mkdir(parents=True, exist_ok=True)
        shutil.copy(kept, to)
    (scratch / 'crates.txt').write_text(f'{text}{NAME}: {USES}\n')


def told(scratch, numbers):
    """What the program tells for each number."""
    cases = pathlib.Path(tempfile.mkdtemp(prefix='cases_', dir=scratch))
    for number in numbers:
        (cases / str(number)).write_text('')
        (cases / f'{number}.args').write_text(f'{number}\n')
    command = ['rt', 'try', '--steps', '1', '--seconds', SECONDS, '--cases', str(cases)]
    done = subprocess.run(command, cwd=scratch / 'crates' / NAME, stdout=subprocess.PIPE, text=True)
    found = {}
    for line in done.stdout.splitlines():
        if line.startswith('== '):
            lines = found.setdefault(line.split()[1], [])
        elif found:
            lines.append(line.strip())
    return found


def point(text):
    x, _, y = text.partition(',')
    return int(x), int(y)


def shape(text):
    return tuple(tuple(map(point, ring.split())) for ring in text.split('|'))


def words(parts):
    """The words of a row, from each with how often it stands there in a row."""
    row = []
    for part in parts:
        word, _, count = part.partition('*')
        row += [int(word)] * int(count)
    return row


class Renaming:
    """Which row of the model's image each row of the other one is."""

    def __init__(self, image, rows, other):
        self.image, self.rows, self.other = image, rows, other
        self.to, self.back, self.todo = {}, {}, []

    def pair(self, kind, row, other):
        """The word of a row may stand for that of the other; False where they are different rows."""
        if row not in self.to and other not in self.back:
            self.to[row], self.back[other] = other, row
            self.todo.append((kind, row, other))
        return self.to.get(row) == other and self.back.get(other) == row

    def references(self, these, those):
        return len(these) == len(those) and all(
            a[1] == b[1] and self.pair('chain', a[0], b[0]) for a, b in zip(these, those))

    def node(self, ours, theirs):
        for a, b in zip(ours, theirs):
            a, b = self.image.decode(a), self.image.decode(b)
            if a is None or b is None or a[0] != b[0]:
                return False
            if a[0] == 'Child' and not self.pair('node', a[1], b[1]):
                return False
            if a[0] == 'Table' and not (a[2] == b[2] and self.pair('list', a[1], b[1])):
                return False
            if a[0] in ('One', 'Two') and not self.references(a[1:], b[1:]):
                return False
        return True

    def lists(self, ours, theirs):
        at = 0
        while at < 256 and theirs[at]:
            if ours[at] != theirs[at]:
                return False
            pairs = (theirs[at] + 1) // 2
            for a, b in zip(ours[at + 1:at + 1 + pairs], theirs[at + 1:at + 1 + pairs]):
                a, b = self.image.unpack(a), self.image.unpack(b)
                if a is None or (a[1] is None) != (b[1] is None):
                    return False
                if not self.references([r for r in a if r], [r for r in b if r]):
                    return False
            at += 1 + pairs
        return not any(ours[at:]) and not any(theirs[at:])

    def chain(self, ours, theirs):
        a, b = ours[0] % 2**32, theirs[0] % 2**32
        if ours[0] >> 32 != theirs[0] >> 32 or ours[1:] != theirs[1:] or (a == 0) != (b == 0):
            return False
        return a == 0 or self.pair('chain', a, b)

    def holds(self, root):
        """Whether each row that is reached has the words of its own row of the model, and all rows are reached."""
        if not self.pair('node', root, self.other.root):
            return False
        while self.todo:
            kind, row, other = self.todo.pop()
            if row not in self.rows:
                return False
            same = {'node': self.node, 'list': self.lists, 'chain': self.chain}[kind]
            if not same(self.rows[row], self.other.rows[other]):
                return False
        return set(self.to) == set(self.rows) and set(self.back) == set(self.other.rows)


class Check:
    """One run, compared as it is told."""

    def __init__(self, model, counts):
        self.model, self.counts = model, counts
        self.rows, self.root, self.state, self.next = {1: [0] * 256}, 1, None, None

    def wrong(self, what):
        self.counts['wrong'] += 1
        print('  wrong:', what, flush=True)

    def change(self, kind, rest):
        if kind == 'train':
            threshold, *sample = rest.split()
            split, state = self.state.train(list(map(point, sample)), int(threshold))
            self.next = ('ok' if split else 'nothing', state)
            return
        key, _, text = rest.partition(' ')
        if kind == 'drop':
            verdict, state = self.state.drop(int(key))
        else:
            update = self.state.add if kind == 'zone' else self.state.replace
            verdict, state = update(int(key), shape(text))
        self.next = (verdict[0], state)

    def made(self, parts):
        facts = dict(zip(parts[::2], parts[1::2]))
        verdict, state = self.next
        if verdict != 'ok':
            self.wrong(f'made, where the model says {verdict}')
            return
        if not int(facts['size']) == int(facts['whole']) == state.size():
            self.wrong('size')
        if int(facts['path']) > self.model.image.fresh(self.state, state):
            self.wrong('more new rows than are fresh')
        self.state, self.root, self.fresh, self.way = state, int(facts['root']), [], facts['by']
        self.counts[self.way] += 1

    def row(self, parts):
        row = int(parts[0])
        if row in self.rows or row == 0:
            self.wrong(f'row {row} is used')
        self.rows[row] = words(parts[1:])

    def gone(self, parts):
        for row in map(int, parts):
            if self.rows.pop(row, None) is None:
                self.wrong(f'row {row} is gone that was not there')
        other = self.model.image.image_of(self.state)
        renaming = Renaming(self.model.image, self.rows, other)
        if not renaming.holds(self.root):
            self.wrong('the rows are not those of the model')
            return
        firsts = {key: renaming.back[row] for key, row in other.first.items()}
        self.image = self.model.image.Image(self.rows, self.root, firsts)
        if not self.model.image.stands(self.image, self.state):
            self.wrong('the image does not stand for the state')
        self.counts['states'] += 1
        self.counts['rows'] += len(self.rows)
        self.counts['lists'] += any(len(t.quads) > 2 for t in self.state.tree.leaves())
        self.counts['trained'] += bool(self.state.trained)

    def at(self, parts):
        p, reads, keys = point(parts[0]), int(parts[2]), list(map(int, parts[4:]))
        due = [key for key, zone in self.state.zones.items() if self.model.geom.inside(zone.shape, p)]
        if keys != due:
            self.wrong(f'keys {keys} at {p}, where {due} hold it')
        if reads > self.model.image.reads(self.state, p):
            self.wrong(f'{reads} reads at {p}')
        if (keys, reads) != self.model.image.probe(self.image, p):
            self.wrong(f'the model finds otherwise at {p} in these rows')
        self.counts['points'] += 1
        self.counts['pairs'] += len(keys)

    def line(self, line):
        head, _, rest = line.partition(' ')
        parts = rest.split()
        if head == 'settings':
            settings = types.SimpleNamespace(digits=0, rows=int(parts[1]), cells=int(parts[3]), workers=4)
            self.state = self.model.index.State(settings)
        elif head in ('zone', 'drop', 'replace', 'train'):
            self.change(head, rest)
        elif head in ('made', 'row', 'gone', 'at'):
            getattr(self, head)(parts)
        elif head in ('refused', 'nothing'):
            self.counts[head] += 1
            if (self.next[0] == 'nothing') != (head == 'nothing') or self.next[0] == 'ok':
                self.wrong(f'{head}, where the model says {self.next[0]}')
        elif head:
            self.wrong(line)


def main():
    sys.path.insert(0, sys.argv[1])
    model = types.SimpleNamespace(**{name: __import__(name) for name in ('index', 'image', 'geom')})
    first, last = (int(word) for word in sys.argv[2:4]) if len(sys.argv) > 3 else (1, 12)
    counts = dict.fromkeys(
        ('runs', 'states', 'rows', 'lists', 'trained', 'path', 'whole', 'refused', 'nothing', 'points', 'pairs', 'wrong'), 0)
    scratch = pathlib.Path(tempfile.mkdtemp(prefix='act_image_compare_'))
    prepare(scratch)
    for begin in range(first, last + 1, PART):
        for name, lines in told(scratch, range(begin, min(begin + PART, last + 1))).items():
            counts['runs'] += 1
            check = Check(model, counts)
            for line in lines:
                check.line(line)
        print(*(f'{name} {count}' for name, count in counts.items()), flush=True)
    shutil.rmtree(scratch)
    sys.exit(1 if counts['wrong'] or counts['runs'] != last + 1 - first else 0)


if __name__ == '__main__':
    main()

#!/usr/bin/env python3
"""Says what comes of the altered snapshots of crates/cases_snapshots, by a reader of its own: altered.py FOLDER SQRE, where the
program SQRE judges query texts. What it writes is what the crate has stored; it is for queries made of an iter over an atom alone."""
import subprocess
import sys
from collections import Counter

LONGEST = 67_108_864
FLAWS = ['long', 'head', 'form', 'query', 'unfit', 'runs', 'others']
verdicts = {}


class Form(Exception):
    pass


class Reader:
    def __init__(self, rest):
        self.rest = rest

    def take(self, count):
        if count > len(self.rest):
            raise Form
        taken, self.rest = self.rest[:count], self.rest[count:]
        return taken

    def number(self, size):
        return int.from_bytes(self.take(size), 'big')

    def one_of(self, values):
        value = self.number(1)
        if value not in values:
            raise Form
        return value

    def scalar(self):
        return self.scalar_of(self.one_of({0, 1, 2}))

    def scalar_of(self, tag):
        return ('number', self.number(8)) if tag == 0 else ('number', tag)

    def value(self):
        return self.value_of(self.number(1))

    def value_of(self, tag):
        if tag <= 2:
            return self.scalar_of(tag)
        if tag == 3:
            keys = [(self.take(self.number(4)), self.scalar())[0] for _ in range(self.number(4))]
            if len(set(keys)) < len(keys):
                raise Form
            return ('table', keys)
        if tag == 4:
            return ('record', [self.scalar() for _ in range(self.one_of(set(range(2, 9))))])
        raise Form

    def runner(self, levels):
        position = self.number(8)
        tag = self.number(1)
        answer = None if tag == 255 else self.value_of(tag)
        return (position, answer, self.node(levels))

    def entries(self):
        return [(self.number(8), self.number(8), self.value()) for _ in range(self.number(4))]

    def node(self, levels):
        if levels == 0:
            raise Form
        tag = self.number(1)
        below = levels - 1
        if tag == 1:
            return ('atom', [self.number(8) for _ in range(self.one_of({0, 1}))])
        if tag == 2:
            return ('eps',)
        if tag in (3, 6):
            return ('pair', tag, self.node(below), self.node(below))
        if tag == 4:
            return ('split', self.node(below), self.node(below), self.entries())
        if tag == 5:
            return ('iter', self.node(below), self.entries())
        if tag == 7:
            return ('apply', self.node(below))
        if tag == 8:
            return ('compose', self.node(below), [(self.number(8), self.runner(below)) for _ in range(self.number(4))])
        if tag == 9:
            return ('collect', [self.track(below) for _ in range(self.number(4))])
        raise Form

    def track(self, below):
        start = self.number(8)
        state = self.number(16) if self.one_of({0, 1}) else None
        fallback = self.runner(below)
        keys = [(self.take(self.number(4)), self.runner(below)) for _ in range(self.number(4))]
        return (start, state, fallback, keys)


def is_accepted(text, sqre):
    if text not in verdicts:
        verdicts[text] = subprocess.run([sqre, 'check', '-'], input=text, stdout=subprocess.DEVNULL).returncode == 0
    return verdicts[text]


def fits(runner):
    position, answer, node = runner
    if position > 2 ** 62 or (answer and answer[0] != 'number') or node[0] != 'iter' or node[1][0] != 'atom':
        return False
    starts, entries = node[1][1], node[2]
    return (
        all(start <= position for start in starts)
        and len(entries) <= 1
        and all(outer <= inner <= position and value[0] == 'number' for inner, outer, value in entries)
    )


def outcome(data, sqre):
    if len(data) > LONGEST:
        return 'long'
    if data[:8] != b'SQRE0001':
        return 'head'
    reader = Reader(data[8:])
    try:
        size = reader.number(4)
        if size > 65_536:
            raise Form
        text = reader.take(size)
        reader.one_of({0, 1})
        runner = reader.runner(1024)
        if reader.rest:
            raise Form
    except Form:
        return 'form'
    if not is_accepted(text, sqre):
        return 'query'
    return 'runs' if fits(runner) else 'unfit'


def report(how, altered, sqre):
    found = Counter(outcome(data, sqre) for data in altered)
    print(how + ': ' + ', '.join(f'{name} {found[name]}' for name in FLAWS))


def exchanged(data, before, at):
    return data[:before] + data[at:at + 1] + data[before + 1:at] + data[before:before + 1] + data[at + 1:]


def main(folder, sqre):
    with open(folder + '/snapshot', 'rb') as file:
        data = file.read()
    print(folder.rstrip('/').rsplit('/', 1)[-1])
    places = range(len(data))
    others = (data[:at] + bytes([value]) + data[at + 1:] for at in places for value in range(256) if value != data[at])
    report('another value of a byte', others, sqre)
    report('a front', (data[:count] for count in places), sqre)
    pairs = ((before, at) for at in places for before in range(at))
    report('two bytes exchanged', (exchanged(data, *pair) for pair in pairs), sqre)


main(sys.argv[1], sys.argv[2])

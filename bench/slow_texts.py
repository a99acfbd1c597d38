"""Query texts whose check takes the longest of those that were tried, and how long it and `why` take.

Each has 63 combines over the tables of eleven collects. The rates of these have the same words and are written differently,
so that each combine compares two rates anew, through up to 4,096 pairs of states. Times are of the processor, the least and
the greatest of fifteen runs, and valgrind counts the instructions. `why` is given the same text with a broken rule at its end.
"""

import os
import random
import re
import subprocess

from queries import show_row
from runs import SQRE, build

LEAVES, KINDS, TIMES = 64, 11, 15


def nested(items, draw):
    """The items one after the other, by pairs that are drawn."""
    if len(items) == 1:
        return items[0]
    cut = min(max(1, len(items) // 2 + draw.randrange(-1, 2)), len(items) - 1)
    return f"seq({nested(items[:cut], draw)},{nested(items[cut:], draw)})"


def cycle(column, length):
    """Items that have one text after the other in the column, again and again."""
    items = [f'item(eq({column},"t{at}"))' for at in range(length)]
    return lambda draw: f"star({nested(items, draw)})"


def ending(columns, length):
    """Any items and then so many that are marked, each in the next of the columns in turn."""
    marked = [f'item(eq({columns[at % len(columns)]},"x"))' for at in range(length)]
    return lambda draw: nested(["star(item(any))", *marked], draw)


def cycles(*lengths):
    columns = [f"d{at}" for at in range(len(lengths))]
    return columns, [cycle(column, length) for column, length in zip(columns, lengths)]


def endings(count, length, *lengths):
    marked = [f"c{at}" for at in range(count)]
    columns, parts = cycles(*lengths)
    return marked + columns, [ending(marked, length), *parts]


def below(limits, *lengths):
    """Any items and then numbers below one limit after the other, beside cycles."""
    columns, parts = cycles(*lengths)
    marked = [f"item(lt(n,{limit}))" for limit in limits]
    return [*columns, "n"], [lambda draw: nested(["star(item(any))", *marked], draw), *parts]


TEXTS = {
    "two cycles, of 62 and 63 items": cycles(62, 63),
    "three cycles, of 13, 14 and 15": cycles(13, 14, 15),
    "four cycles, of 5, 6, 7 and 11": cycles(5, 6, 7, 11),
    "twelve last items, by eleven columns": endings(11, 12),
    "seven last items and cycles of 4 and 5": endings(7, 7, 4, 5),
    "two last items and cycles of 7, 9 and 10": endings(2, 2, 7, 9, 10),
    "six last items by four columns, cycles of 2, 3 and 15": endings(4, 6, 3, 15, 2),
    "nine last items by seven columns and a cycle of 10": endings(7, 9, 10),
    "eleven last items by one column, cycles of 5, 8 and 15": endings(1, 11, 15, 5, 8),
    "numbers below five limits, cycles of 2, 13 and 14": below((35, 32, 26, 9, 5), 2, 14, 13),
    "numbers below four limits, cycles of 4, 9 and 11": below((23, 19, 13, 8), 9, 11, 4),
}


def rate(parts, kind):
    draw = random.Random(kind)
    ways = [part(draw) for part in parts]
    draw.shuffle(ways)
    choice = ways[0]
    for way in ways[1:]:
        choice = f"alt({choice},{way})"
    return choice


def combined(kinds):
    if len(kinds) == 1:
        return f"q{kinds[0]}"
    half = len(kinds) // 2
    left, right = ("tcount(x)" if half == 1 else "x"), ("tcount(y)" if len(kinds) - half == 1 else "y")
    return f"combine({combined(kinds[:half])},{combined(kinds[half:])},add({left},{right}))"


def text_of(columns, parts, *, refused):
    collects = [f"let(q{kind},collect({columns[0]},not(any),{rate(parts, kind)},atom(any,1)))" for kind in range(KINDS)]
    query = combined([at % KINDS for at in range(LEAVES)])
    declared = ",".join(f"col({column},{'int' if column == 'n' else 'text'})" for column in columns)
    main = f"or({query},iter(atom(any,1),0,add(x,y)))" if refused else query
    return "\n".join([f"stream(plain,{declared})", *collects, f"main({main})", ""])


def spent(words, folder):
    """The processor time of one run."""
    before = os.times()
    subprocess.run([SQRE, *words, "text.sqre"], cwd=folder, stdout=subprocess.DEVNULL)
    after = os.times()
    return after.children_user + after.children_system - before.children_user - before.children_system


def instructions(words, folder):
    counted = ["valgrind", "--tool=callgrind", f"--callgrind-out-file={folder / 'counted'}", SQRE, *words, "text.sqre"]
    ran = subprocess.run(counted, cwd=folder, stdout=subprocess.DEVNULL, stderr=subprocess.PIPE, text=True)
    return int(re.search(r"Collected : (\d+)", ran.stderr)[1])


def times(words, folder):
    taken = [spent(words, folder) for _ in range(TIMES)]
    return f"{min(taken):.2f} to {max(taken):.2f} s"


def measure(folder):
    build("sqre")
    show_row("the rates", "bytes", "instructions of `check`", "`check`", "`why`")
    show_row(*["---"] * 5)
    for name, (columns, parts) in TEXTS.items():
        (folder / "text.sqre").write_text(text_of(columns, parts, refused=False))
        size, count, accepted = (folder / "text.sqre").stat().st_size, instructions(["check"], folder), times(["check"], folder)
        (folder / "text.sqre").write_text(text_of(columns, parts, refused=True))
        show_row(name, f"{size:,}", f"{count / 1e9:.2f} billion", accepted, times(["why"], folder))

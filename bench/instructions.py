"""Instructions an item of eight queries, beside programs that were written for them in plain Rust, with blocks.

Printed is a table in Markdown. Valgrind counts what a run takes over 10,000 lines and over 30,000; the difference is of
the 20,000 lines between. The count of a program is the same in each run, whatever else the machine does.
"""

import re
import subprocess

from queries import QUERIES, keyed, numbers, programs, show_row, trades, write_lines
from runs import build, build_rust, see_same

SHORT, LONG = 10_000, 30_000

# What is counted, by its query and what draws so many of its lines.
COUNTED = {
    "a running sum": ("running_sum", numbers),
    "the peak of a running sum": ("peak", numbers),
    "an average": ("average", numbers),
    "an average by a record": ("average_by_record", numbers),
    "sums by 8 keys, a table at each 16th line": ("sums_by_key", lambda count: keyed(8, 16, count)),
    "sums by 10,000 keys, a table at each 5,000th": ("sums_by_key", lambda count: keyed(10_000, 5_000, count)),
    "a sum since a mark": ("sum_since_mark", lambda count: keyed(8, 10, count)),
    "price times quantity of one symbol": ("turnover", trades),
}
COMPARED = ["`sqre run`", "Rust, blocks"]


def instructions(command, folder, name):
    """All that a run to /dev/null takes, with the start of its process."""
    counted = ["valgrind", "--tool=callgrind", f"--callgrind-out-file={folder / 'counted'}", *command]
    with open(folder / name) as items:
        ran = subprocess.run(counted, cwd=folder, stdin=items, stdout=subprocess.DEVNULL, stderr=subprocess.PIPE,
                             check=True, text=True)
    return int(re.search(r"Collected : (\d+)", ran.stderr)[1])


def of_an_item(command, folder):
    return (instructions(command, folder, "long") - instructions(command, folder, "short")) / (LONG - SHORT)


def measure(folder):
    build("sqre")
    build_rust("plain_queries", folder)
    show_row("instructions an item", *COMPARED)
    show_row(*["---"] * (1 + len(COMPARED)))
    for name, (query, lines) in COUNTED.items():
        (folder / f"{query}.sqre").write_text(QUERIES[query])
        write_lines(folder, "short", lines(SHORT))
        write_lines(folder, "long", lines(LONG))
        see_same(programs(query), folder, "long")
        commands = (programs(query)[program] for program in COMPARED)
        show_row(name, *(f"{of_an_item(command, folder):,.0f}" for command in commands))

"""Runs of programs in a folder, over a file of items that stands there, and what they take."""

import pathlib
import statistics
import subprocess
import sys
import time

ITEMS = 1_000_000
RUNS = 5
TOP = pathlib.Path(__file__).resolve().parent.parent
SQRE = TOP / "crates/sqre/out/sqre"


def build(*crates):
    """Builds the programs of these crates, where they are not built yet."""
    for crate in crates:
        subprocess.run(["rt", "run"], cwd=TOP / "crates" / crate, stdin=subprocess.DEVNULL,
                       stdout=subprocess.DEVNULL, stderr=subprocess.DEVNULL)


def build_rust(name, folder):
    """Builds the program of this name in Rust."""
    subprocess.run(["rustc", "--edition", "2021", "-O", "-o", folder / name, TOP / f"bench/{name}.rs"], check=True)


def run(command, folder, out, name="items"):
    with open(folder / name) as items:
        subprocess.run(command, cwd=folder, stdin=items, stdout=out, check=True)


def to_null(command, folder, name="items"):
    with open("/dev/null", "w") as null:
        run(command, folder, null, name)


def of(name):
    """A run to /dev/null over the items of this name."""
    return lambda command, folder: to_null(command, folder, name)


def to_pipe(command, folder, name="items"):
    with subprocess.Popen(["cat"], stdin=subprocess.PIPE, stdout=subprocess.DEVNULL) as cat:
        run(command, folder, cat.stdin, name)


def to_pipe_of(name):
    """A run into a pipe over the items of this name."""
    return lambda command, folder: to_pipe(command, folder, name)


def answers(command, folder, name="items"):
    with open(folder / "answers", "w+") as out:
        run(command, folder, out, name)
        out.seek(0)
        return out.read()


def see_same(commands, folder, name):
    if len({answers(command, folder, name) for command in commands.values()}) != 1:
        sys.exit("the answers differ")


def once(way, command, folder):
    start = time.perf_counter()
    way(command, folder)
    return time.perf_counter() - start


def seconds(way, command, folder):
    return statistics.median(once(way, command, folder) for _ in range(RUNS))


def seconds_in_turn(way, commands, folder):
    """The times of commands that take turns, so that a slow minute of the machine falls on all of them."""
    rounds = [[once(way, command, folder) for command in commands] for _ in range(RUNS)]
    return [statistics.median(times) for times in zip(*rounds)]


def peak(command, folder, name):
    """The most memory of a run to /dev/null, in KiB. `time` starts it, since a child of a script in Python would begin
    with the memory of that."""
    to_null(["time", "--format", "%M", "--output", "peak", *command], folder, name)
    return int((folder / "peak").read_text())

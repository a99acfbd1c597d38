"""What lines with their answers cost: `beside`, the forms of `view`, and two queries in one pass, by a run and a copy of the lines.

Printed are tables in Markdown. The copy is that of `cat`. What stands after `of both` is the time of `beside` over that of `run` and
`cat` together.
"""

from queries import MEASURED, show_row, write_files
from runs import SQRE, TOP, build, of, seconds_in_turn, to_pipe_of

BESIDE = TOP / "crates/beside/out/beside"
VIEW = TOP / "crates/view/out/view"
SHOWN = ["a running sum", "sums by 8 keys", "price times quantity of one symbol"]


def commands(query):
    file = f"{query}.sqre"
    return {
        "`run`": [SQRE, "run", file, "-"],
        "`cat`": ["cat"],
        "`beside`": [BESIDE, "beside", file, "-"],
        "of both": None,
        "`beside`, twice the query": [BESIDE, "beside", file, file, "-"],
        **{f"`view`, {form}": [VIEW, "view", file, "-", form] for form in ["json", "csv", "tsv", "columns"]},
    }


def show_times(title, way, folder):
    print()
    names = list(commands(""))
    show_row(title, *names)
    print("|" + "---|" * (1 + len(names)))
    for name in SHOWN:
        query, items = MEASURED[name]
        timed = {told: words for told, words in commands(query).items() if words}
        times = dict(zip(timed, seconds_in_turn(way(items), timed.values(), folder)))
        ratio = times["`beside`"] / (times["`run`"] + times["`cat`"])
        show_row(name, *(f"{times[told]:.2f} s" if told in times else f"{ratio:.2f}" for told in names))


def measure(folder):
    build("sqre", "beside", "view")
    write_files(folder)
    show_times("into a pipe", to_pipe_of, folder)
    show_times("to `/dev/null`", of, folder)

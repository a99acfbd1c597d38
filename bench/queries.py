"""Six queries over a million lines, beside programs that were written for them in plain Rust and for mawk.

Printed are tables in Markdown: of times, with their ratio over that of `sqre`, and of peaks of memory. All programs
write an answer to each line. Of sums by key it is the greatest sum of a key, and `undefined` on a line that is no mark:
a table of the sums, or a number out of one on every line, would measure how long tables are. Marks are so rare that
their tables have in all no more entries than there are lines. To the query a mark is one more key, whose sum is 0.
"""

import random

from runs import ITEMS, SQRE, build, build_rust, of, peak, see_same, seconds_in_turn, to_pipe_of

NUMBERS = "stream(plain, col(n, int))"
WORDS = "stream(plain, col(word, text), col(n, int))"
TRADES = "stream(plain, col(symbol, text), col(price, fixed(2)), col(shares, int))"

QUERIES = {
    "running_sum": f"{NUMBERS} main(iter(atom(any, n), 0, add(x, y)))",
    "average": f"""{NUMBERS} main(combine(
        iter(atom(any, n), 0, add(x, y)),
        iter(atom(any, 1), 0, add(x, y)),
        div(x, y)))""",
    "average_by_record": f"""{NUMBERS} main(apply(combine(
        iter(atom(any, n), 0, add(x, y)),
        iter(atom(any, 1), 0, add(x, y)),
        rec(x, y)),
        div(part(x, 1), part(x, 2))))""",
    "peak": f"""{NUMBERS} main(compose(
        iter(atom(any, n), 0, add(x, y)),
        iter(atom(any, value), 0, max(x, y))))""",
    "sums_by_key": f"""{WORDS} main(apply(
        collect(word, not(any),
            seq(star(item(any)), item(eq(word, "mark"))),
            iter(atom(any, n), 0, add(x, y))),
        tmax(x, 0)))""",
    "sum_since_mark": f"""{WORDS} main(split(
        or(eps(0), split(iter(atom(any, 0), 0, 0), atom(eq(word, "mark"), 0), 0)),
        iter(atom(ne(word, "mark"), n), 0, add(x, y)),
        y))""",
    "turnover": f"""{TRADES} main(iter(
        or(atom(eq(symbol, "AAPL"), mul(price, shares)), atom(ne(symbol, "AAPL"), 0)),
        0, add(x, y)))""",
}

# The same for mawk, whose numbers are exact up to 2^53. Its `int` cuts towards zero, as `div` does.
MAWK = {
    "running_sum": '{ sum += $1; printf "%.0f\\n", sum; fflush() }',
    "average": '{ sum += $1; printf "%d\\n", int(sum / NR); fflush() }',
    "peak": '{ sum += $1; if (sum > peak) peak = sum; printf "%.0f\\n", peak; fflush() }',
    "sums_by_key": """
        $1 == "mark" {
            greatest = 0
            for (key in sums) if (sums[key] > greatest) greatest = sums[key]
            printf "%.0f\\n", greatest
        }
        $1 != "mark" { sums[$1] += $2; print "undefined" }
        { fflush() }""",
    "sum_since_mark": '{ sum = $1 == "mark" ? 0 : sum + $2; printf "%.0f\\n", sum; fflush() }',
    "turnover": '$1 == "AAPL" { sum += int($2 * 100 + 0.5) * $3 } { printf "%.0f\\n", sum; fflush() }',
}

# Queries that have the answers of another one, by that one's name.
SAME = {"average_by_record": "average"}

# What is measured, by its query and the name of its items.
MEASURED = {
    "a running sum": ("running_sum", "numbers"),
    "an average": ("average", "numbers"),
    "the peak of a running sum": ("peak", "numbers"),
    "sums by 8 keys": ("sums_by_key", "8 keys"),
    "sums by 10,000 keys": ("sums_by_key", "10,000 keys"),
    "a sum since a mark": ("sum_since_mark", "marks"),
    "price times quantity of one symbol": ("turnover", "trades"),
}
LENGTHS = [100_000, 1_000_000, 10_000_000]
# The lines from mark to mark where a key is weighed: no mark, and one in the last line, whose table is weighed too.
WEIGHED = {"a key": None, "a key and its entry in a table": ITEMS}


def programs(query):
    by_hand = SAME.get(query, query)
    return {
        "`sqre run`": [SQRE, "run", f"{query}.sqre", "-"],
        "Rust, line by line": ["./plain_queries", by_hand],
        "Rust, blocks": ["./plain_queries", by_hand, "blocks"],
        "mawk": ["mawk", "-F,", MAWK[by_hand]],
    }


def numbers(count):
    drawn = random.Random(1)
    return (f"{drawn.randrange(-4096, 4096)}\n" for _ in range(count))


def keyed(keys, marks, count=ITEMS):
    """Keys without an order, each as often as the others, with a mark in place of the last of so many lines."""
    drawn = random.Random(1)
    order = [n % keys for n in range(count)]
    drawn.shuffle(order)
    for n, key in enumerate(order):
        is_mark = marks is not None and n % marks == marks - 1
        yield "mark,0\n" if is_mark else f"key {key},{drawn.randrange(-4096, 4096)}\n"


def trades(count=ITEMS):
    drawn = random.Random(1)
    for _ in range(count):
        symbol = drawn.choice(["AAPL", "AMZN", "GOOG", "IBM", "INTC", "META", "MSFT", "ORCL"])
        yield f"{symbol},{drawn.randrange(1000)}.{drawn.randrange(100):02},{drawn.randrange(1, 1000)}\n"


def write_lines(folder, name, lines):
    with open(folder / name, "w") as items:
        items.writelines(lines)


def write_files(folder):
    for query, text in QUERIES.items():
        (folder / f"{query}.sqre").write_text(text)
    for name, lines in {
        "numbers": numbers(ITEMS),
        "8 keys": keyed(8, 10_000),
        "10,000 keys": keyed(10_000, 10_000),
        "marks": keyed(8, 10),
        "trades": trades(),
    }.items():
        write_lines(folder, name, lines)


def show_row(*cells):
    print("|", " | ".join(cells), "|", flush=True)


def show_head(title):
    names = list(programs("running_sum"))
    print()
    show_row(title, *names)
    print("|" + "---|" * (1 + len(names)))


def show_times(title, way, folder):
    show_head(title)
    for name, (query, items) in MEASURED.items():
        times = seconds_in_turn(way(items), programs(query).values(), folder)
        ratios = [f"{spent:.2f} s, {spent / times[0]:.2f}" for spent in times[1:]]
        show_row(name, f"{times[0]:.2f} s", *ratios)


def peaks(query, items, folder):
    return [peak(command, folder, items) for command in programs(query).values()]


def show_peaks(name, query, items, folder):
    show_row(name, *(f"{most:,} KiB" for most in peaks(query, items, folder)))


def show_lengths(folder):
    for name in ["a running sum", "an average"]:
        query, _ = MEASURED[name]
        for count in LENGTHS:
            write_lines(folder, "so many", numbers(count))
            show_peaks(f"{name} of {count:,}", query, "so many", folder)


def show_weights(folder):
    for name, marks in WEIGHED.items():
        write_lines(folder, "few keys", keyed(8, marks))
        write_lines(folder, "many keys", keyed(ITEMS, marks))
        few, many = (peaks("sums_by_key", items, folder) for items in ["few keys", "many keys"])
        show_row(name, *(f"{(most - least) * 1024 / ITEMS:.0f} bytes" for least, most in zip(few, many)))


def measure(folder):
    build("sqre")
    build_rust("plain_queries", folder)
    write_files(folder)
    for query, items in MEASURED.values():
        see_same(programs(query), folder, items)
    show_times("into a pipe", to_pipe_of, folder)
    show_times("to `/dev/null`", of, folder)
    show_head("the peak of memory")
    for name, (query, items) in MEASURED.items():
        show_peaks(name, query, items, folder)
    show_lengths(folder)
    show_head("more memory for each of a million keys")
    show_weights(folder)

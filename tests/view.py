#!/usr/bin/env python3
"""Compares what `sqre view` writes with what `sqre run` writes of the same items: view.py SQRE FOLDER.., each with a query.sqre and a
readings.csv, which may be refused. The fields are read anew by Python's csv, and the answers from the lines of the run. The last line is
'N passed, M failed'."""

import csv
import io
import json
import pathlib
import re
import subprocess
import sys

# How many digits after the point the answers have, by hand from the columns of each folder: all other answers are whole numbers.
DIGITS = {"above_zero": 1, "account": 2, "account_from_zero": 2, "alarms": 1, "bytes": 2, "calibration": 3, "freezer": 1,
          "freezer_from_zero": 1, "mean": 1, "moving_mean": 3, "rainfall": 1, "restarts": 2, "session_spread": 2, "spread": 2,
          "widening": 2}

counts = {True: 0, False: 0}


def holds(told, is_so):
    counts[is_so] += 1
    if not is_so:
        print(f"FAILED {told}")


def same(told, wanted, found):
    holds(told, wanted == found)
    if wanted != found:
        for at in range(max(len(wanted), len(found))):
            if wanted[at:at + 1] != found[at:at + 1]:
                print(f"at {at}\nwanted: {wanted[at:at + 1]}\nfound:  {found[at:at + 1]}")
                break


def written(*words):
    return subprocess.run(words, stdout=subprocess.PIPE, stderr=subprocess.DEVNULL, stdin=subprocess.DEVNULL).stdout


def decimal(number, digits):
    """A number of smallest units with so many digits after the point."""
    sign, size = ("-", number[1:]) if number.startswith("-") else ("", number)
    if digits == 0:
        return sign + size
    size = size.rjust(digits + 1, "0")
    return f"{sign}{size[:-digits]}.{size[-digits:]}"


def text_of(bytes_):
    """Bytes as a view of JSON has them: what is no UTF-8 by its two digits."""
    return re.sub("[\udc80-\udcff]", lambda it: f"\\x{ord(it[0]) - 0xdc00:02X}", bytes_.decode("utf-8", "surrogateescape"))


def seen(bytes_):
    """Bytes as a terminal has them: control characters, and what is no UTF-8, by their two digits."""
    return re.sub("[\0-\x1f\x7f]", lambda it: f"\\x{ord(it[0]):02X}", text_of(bytes_))


class Answer:
    """What a run writes of a line, to be shown with so many digits."""

    def __init__(self, text, digits):
        self.text = text
        self.digits = digits
        self.is_skipped = text.startswith("skipped ")

    def scalar(self, text):
        return decimal(text, self.digits) if re.fullmatch("-?[0-9]+", text) else text

    def entries(self):
        return re.findall('"([^"]*)":([^,}]*)', self.text)

    def value(self):
        """As JSON is read where numbers stay texts."""
        if self.text == "undefined":
            return None
        if self.text.startswith("("):
            return [self.scalar(part) for part in self.text[1:-1].split(",")]
        if self.text.startswith("{"):
            return {text_of(key_of(key)): self.scalar(value) for key, value in self.entries()}
        return self.scalar(self.text)

    def shown(self):
        """As a cell of a table has it: as a run writes it, but for the decimals."""
        if self.text.startswith("("):
            return "(" + ",".join(self.value()) + ")"
        if self.text.startswith("{"):
            return "{" + ",".join(f'"{key}":{self.scalar(value)}' for key, value in self.entries()) + "}"
        return self.scalar(self.text)


def key_of(spelled):
    """The bytes of a key as a run spells it."""
    return re.sub(rb"\\x([0-9A-F]{2})", lambda it: bytes.fromhex(it[1].decode()), spelled.encode())


class Column:
    def __init__(self, name, kind):
        self.name = name
        self.kind = kind

    def text(self, field):
        """The bytes of a field, with all the digits that its column has."""
        if self.kind == "text":
            return field
        whole, _, part = field.decode().lstrip("+-").partition(".")
        digits = int(self.kind[6]) if self.kind != "int" else 0
        size = str(int(whole + part.ljust(digits, "0")))
        return decimal(("-" if field.startswith(b"-") and size != "0" else "") + size, digits).encode()


def fields_of(line):
    line = line.removeprefix(b"\xef\xbb\xbf").decode("latin-1")
    return [field.encode("latin-1") for field in next(csv.reader(io.StringIO(line, newline="")), [""])]


class Example:
    """The lines of a stream that a run has answered, each with its answer."""

    def __init__(self, sqre, folder, digits):
        self.query = folder / "query.sqre"
        self.items = folder / "readings.csv"
        self.name = folder.name
        self.sqre = sqre
        told = written(sqre, "rewrite", self.query)
        self.is_refused = told.startswith(b"refused ")
        if self.is_refused:
            return
        stream = told.split(b"\n")[0].decode()
        self.columns = [Column(*it) for it in re.findall(r"col\((\w+), (int|text|fixed\(\d\))\)", stream)]
        lines = self.items.read_bytes().split(b"\n")
        lines = [line.removesuffix(b"\r") for line in lines[stream.startswith("stream(header"):]]
        answers = written(sqre, "run", self.query, self.items).decode().splitlines()
        self.rows = list(zip([line for line in lines if line], [Answer(text, digits) for text in answers], strict=True))

    def view(self, *options):
        return written(self.sqre, "view", self.query, self.items, *options)

    def object_of(self, line, answer):
        if answer.is_skipped:
            front = {} if answer.text == "skipped long 0" else {"line": text_of(line)}
            return front | {"skipped": answer.text[8:]}
        fields = zip(self.columns, fields_of(line), strict=True)
        return {column.name: text_of(column.text(field)) for column, field in fields} | {"answer": answer.value()}

    def cells_of(self, line, answer):
        if answer.is_skipped:
            front = b"" if answer.text == "skipped long 0" else line
            return [front] + [b""] * (len(self.columns) - 1) + [answer.text.encode()]
        fields = zip(self.columns, fields_of(line), strict=True)
        return [column.text(field) for column, field in fields] + [answer.shown().encode()]

    def names(self):
        return [column.name.encode() for column in self.columns] + [b"answer"]

    def test_json(self):
        found = self.view("--json")
        for reader in ["python3", "-m", "json.tool", "--json-lines", "--no-ensure-ascii"], ["jq", "-c", "."]:
            try:
                told = subprocess.run(reader, input=found, stdout=subprocess.DEVNULL, stderr=subprocess.PIPE)
            except FileNotFoundError:
                continue
            holds(f"{self.name}: its JSON is read by {reader[0]}: {told.stderr.decode()}", told.returncode == 0)
        found = [json.loads(line, parse_int=str, parse_float=str) for line in found.split(b"\n")[:-1]]
        same(f"{self.name}: its JSON", [self.object_of(*row) for row in self.rows], found)

    def test_csv(self):
        table = io.StringIO(self.view("--csv").decode("latin-1"), newline="")
        found = [[cell.encode("latin-1") for cell in row] for row in csv.reader(table)]
        same(f"{self.name}: its CSV", [self.names()] + [self.cells_of(*row) for row in self.rows], found)

    def test_tsv(self):
        escapes = {b"\\t": b"\t", b"\\n": b"\n", b"\\r": b"\r", b"\\\\": b"\\"}
        found = [[re.sub(rb"\\.", lambda it: escapes[it[0]], cell) for cell in line.split(b"\t")] for line in self.view("--tsv").split(b"\n")[:-1]]
        same(f"{self.name}: its TSV", [self.names()] + [self.cells_of(*row) for row in self.rows], found)

    def columns_of(self):
        """Lines of columns, each as wide as its widest text so far: texts stand to the left, and numbers to the right."""
        kinds = [column.kind for column in self.columns] + ["int"]
        widths = [0] * len(kinds)
        for line, answer in [(None, None)] + self.rows:
            if answer and answer.is_skipped:
                front = "" if answer.text == "skipped long 0" else seen(line)
                yield f"{front}  {answer.text}"
                continue
            cells = [seen(cell) for cell in (self.cells_of(line, answer) if answer else self.names())]
            widths = [max(width, len(cell)) for width, cell in zip(widths, cells)]
            yield "  ".join(cell.ljust(width) if kind == "text" else cell.rjust(width)
                            for cell, width, kind in zip(cells, widths, kinds, strict=True))

    def test_columns(self):
        same(f"{self.name}: its columns", list(self.columns_of()), self.view().decode("utf-8").split("\n")[:-1])


def main(sqre, *folders):
    for folder in map(pathlib.Path, folders):
        example = Example(sqre, folder, DIGITS.get(folder.name, 0))
        if not example.is_refused:
            example.test_json()
            example.test_csv()
            example.test_tsv()
            example.test_columns()
    print(f"{counts[True]} passed, {counts[False]} failed")
    return 0 if counts[False] == 0 else 1


sys.exit(main(*sys.argv[1:]))

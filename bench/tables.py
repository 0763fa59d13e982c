#!/usr/bin/env python3
"""Times runs of `checkdb replay` in which tables come and go, and INSERTs into tables of more and more pages. First 500
and 1,000 pairs of CREATE HEAP and DROP; then 200 INSERTs into a table of 8, of 64 and of 512 pages, of which all but the
last are full by their PFS bytes. The yardstick: twice as many pairs take about twice the time, and eight times as many
pages at most eight times.

    bench/tables.py            prints seconds for each, and their ratios
"""
import os
import subprocess
import sys
import tempfile
import time

import inserts
from inserts import PROGRAM, TOP
from pages import PAGE, ROOM, catalog_entry, iam_pages, page, system_pages

ROWS = 200


def table_file(count):
    """A file of the standard geometry with a heap `t` that owns so many pages behind the first sixteen, in extents that
    it marks. They are empty, but the bytes of all but the last say that they are full."""
    pages = 16 + count
    made = {**system_pages(pages), **iam_pages(pages)}
    made[9][96:136] = catalog_entry(1, 1, b"t", 8, 0)
    for number in range(16, pages):
        made[number] = page(number, 1, 1, free=ROOM, free_from=96)
        made[1][96 + number] = 0x44 if number < pages - 1 else 0x40
    return b"".join(bytes(made.get(number, bytearray(PAGE))) for number in range(pages))


def seconds(folder, file, lines, reply):
    """How long a run of this script takes, each line of which is replied to so."""
    names = {name: os.path.join(folder, name) for name in ("data", "log", "schedule", "script")}
    with open(names["data"], "wb") as data:
        data.write(file)
    for name in ("log", "schedule"):
        open(names[name], "wb").close()
    with open(names["script"], "w") as script:
        script.write("\n".join(lines) + "\n")
    start = time.monotonic()
    done = subprocess.run(
        [PROGRAM, "replay", names["data"], names["log"], names["schedule"], names["script"]],
        stdout=subprocess.PIPE,
        check=True,
    )
    took = time.monotonic() - start
    good = done.stdout.count(reply)
    if good != len(lines):
        sys.exit(f"{good} statements were carried out, and not {len(lines)}")
    return took


def least(folder, file, lines, reply):
    return min(seconds(folder, file, lines, reply) for _ in range(3))


def main():
    # Without words the program ends at once; it is built first where it isn't.
    subprocess.run([os.path.join(TOP, "checkdb")], stderr=subprocess.DEVNULL)
    with tempfile.TemporaryDirectory() as folder:
        few, many = (least(folder, inserts.data_file(), ["CREATE HEAP u", "DROP u"] * n, b" OK\n") for n in (500, 1000))
        print(f"pairs of CREATE HEAP and DROP: 500 {few:.2f} s; 1,000 {many:.2f} s; ratio {many / few:.2f}")
        rows = [f"INSERT t {k} ''" for k in range(ROWS)]
        times = {count: least(folder, table_file(count), rows, b" ROWS 1\n") for count in (8, 64, 512)}
        for count, took in times.items():
            print(f"{ROWS} INSERTs into {count} pages: {took:.3f} s, {1e6 * took / ROWS / count:.1f} µs a page")


if __name__ == "__main__":
    main()

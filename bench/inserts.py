#!/usr/bin/env python3
"""Times runs of `checkdb replay` with INSERTs of two sizes. First 5,000 and 10,000 in transactions of 400 that are
rolled back; then 2,300 and 4,600 that fill one page after another, of the eight that a table can have until tables
grow. The yardstick: twice as many take about twice the time.

    bench/inserts.py            prints seconds for both sizes, and their ratio
"""
import os
import struct
import subprocess
import sys
import tempfile
import time

from pages import PAGE, ROOM, catalog_entry, page, set_bit

TOP = os.path.dirname(os.path.dirname(os.path.abspath(__file__)))
PROGRAM = os.path.join(TOP, "crates", "checkdb", "out", "checkdb")


def data_file():
    """A small file of 24 pages with a heap `t` of eight empty pages, 10 to 17, in its single-page slots."""
    pages = [bytearray(PAGE) for _ in range(24)]
    pages[0] = page(0, 15)
    struct.pack_into("<8sHBxI", pages[0], 96, b"PGCHKDB1", 1, 2, len(pages))
    pages[1] = page(1, 11)
    pages[1][96:106] = bytes([0x44] * 4 + [0] * 4 + [0x70, 0x64])
    pages[1][106:114] = bytes([0x60] * 8)
    pages[2] = page(2, 8)
    pages[3] = page(3, 9)
    set_bit(pages[3], 2)
    pages[8] = page(8, 10, 1)
    struct.pack_into("<8I", pages[8], 104, *range(10, 18))
    pages[9] = page(9, 13)
    pages[9][96:136] = catalog_entry(1, 1, b"t", 8, 0)
    for number in range(10, 18):
        pages[number] = page(number, 1, 1, free=ROOM, free_from=96)
    return b"".join(bytes(p) for p in pages)


def rolled_back(inserts):
    """A script whose INSERTs are rolled back every 400, so that each meets the same page."""
    lines = []
    for k in range(inserts):
        if k % 400 == 0:
            lines.append("BEGIN")
        lines.append(f"INSERT t {k} ''")
        if k % 400 == 399 or k == inserts - 1:
            lines.append("ROLLBACK")
    return lines


def kept(inserts):
    """A script whose INSERTs fill one page after another; 592 rows fill a page."""
    return [f"INSERT t {k} ''" for k in range(inserts)]


def seconds(folder, lines):
    """How long a run of this script takes."""
    inserts = sum(line.startswith("INSERT") for line in lines)
    names = {name: os.path.join(folder, name) for name in ("data", "log", "schedule", "script")}
    with open(names["data"], "wb") as file:
        file.write(data_file())
    for name in ("log", "schedule"):
        open(names[name], "wb").close()
    with open(names["script"], "w") as file:
        file.write("\n".join(lines) + "\n")
    start = time.monotonic()
    done = subprocess.run(
        [PROGRAM, "replay", names["data"], names["log"], names["schedule"], names["script"]],
        stdout=subprocess.PIPE,
        check=True,
    )
    took = time.monotonic() - start
    written = done.stdout.count(b" ROWS 1\n")
    if written != inserts:
        sys.exit(f"{written} rows were written, and not {inserts}")
    return took


def compare(folder, script, few, many, what):
    seconds(folder, script(400))
    least, most = (min(seconds(folder, script(n)) for _ in range(3)) for n in (few, many))
    print(f"{what}: {few:,} INSERTs {least:.2f} s; {many:,} {most:.2f} s; ratio {most / least:.2f}")


def main():
    # Without words the program ends at once; it is built first where it isn't.
    subprocess.run([os.path.join(TOP, "checkdb")], stderr=subprocess.DEVNULL)
    with tempfile.TemporaryDirectory() as folder:
        compare(folder, rolled_back, 5000, 10000, "on one page, rolled back")
        compare(folder, kept, 2300, 4600, "on one page after another, kept")


if __name__ == "__main__":
    main()

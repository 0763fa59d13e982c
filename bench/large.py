#!/usr/bin/env python3
"""Times `checkdb check` of a large file against `cat` of the same file, both from the page cache: one clustered
table whose leaves have 100 rows of 70 bytes.

    bench/large.py [PAGES [KIND ..]]     files of these kinds, of all where none is named; 131,072 pages (1 GiB) where no
                                         number is given

For each kind it prints the seconds of `cat`, those of `check`, their ratio, the most memory that `check` held, and
the last line of the report. The yardstick for `sound` at 1 GiB: a ratio of at most 4, and at most 64 MiB; at 4 GiB
(524,288 pages) at most 256 MiB.
"""
import os
import subprocess
import sys
import tempfile
import time

from pages import (INDEX_ROWS, PAGE, catalog_entry, crowded_page, iam_pages, index_page, is_system, leaf, system_pages,
                   ROWS)

TOP = os.path.dirname(os.path.dirname(os.path.abspath(__file__)))
PROGRAM = os.path.join(TOP, "crates", "checkdb", "out", "checkdb")

KINDS = {
    "sound": "no error",
    "crowded": "the first leaf has 4,000 slots",
    "one_child": "all index rows name one leaf",
    "one_next": "all leaves name one page as next",
    "every_page": "each leaf says the number of another page",
}


def levels_of(leaves):
    """How many pages each level has, from the leaves to the root."""
    counts = [leaves]
    while counts[-1] > 1:
        counts.append((counts[-1] + INDEX_ROWS - 1) // INDEX_ROWS)
    return counts


def plan(pages):
    """The pages of the table: the numbers of each level, from the leaves to the root, left to right."""
    numbers = [p for p in range(16, pages) if not is_system(p // 8)]
    leaves = len(numbers)
    while sum(levels_of(leaves)) > len(numbers):
        leaves -= 1
    counts = levels_of(leaves)
    above = sum(counts[1:])
    levels, at = [], 0
    for count in reversed(counts[1:]):
        levels.append(numbers[at:at + count])
        at += count
    return [numbers[above:above + leaves]] + levels[::-1], numbers[above + leaves:]


def neighbours(level, i):
    prev = level[i - 1] if i else 0
    following = level[i + 1] if i + 1 < len(level) else 0
    return prev, following


def write_file(path, pages, kind):
    levels, spare = plan(pages)
    leaves = levels[0]
    with open(path, "wb") as file:
        file.truncate(pages * PAGE)

        def put(number, bytes_):
            file.seek(number * PAGE)
            file.write(bytes_)

        made = system_pages(pages)
        made.update(iam_pages(pages))
        made[9][96:136] = catalog_entry(1, 2, b"t", 8, levels[-1][0])
        for p in spare:
            made[p - p % 8088 or 1][96 + p % 8088] = 0
        for number, bytes_ in made.items():
            put(number, bytes_)
        keys = [ROWS * i for i in range(len(leaves))]
        for height, level in enumerate(levels[1:], 1):
            below = levels[height - 1]
            for i, number in enumerate(level):
                part = slice(i * INDEX_ROWS, (i + 1) * INDEX_ROWS)
                children = below[part] if kind != "one_child" or height > 1 else [below[0]] * len(below[part])
                rows = list(zip(keys[part], children))
                put(number, index_page(number, height, *neighbours(level, i), rows))
            keys = keys[::INDEX_ROWS]
        for i, number in enumerate(leaves):
            prev, following = neighbours(leaves, i)
            if kind == "one_next":
                following = leaves[0]
            bytes_ = leaf(number, prev, following, ROWS * i)
            if kind == "every_page":
                bytes_[4] ^= 1
            if kind == "crowded" and i == 0:
                bytes_ = crowded_page(number)
            put(number, bytes_)


def timed(words):
    """Seconds and the most memory in MiB of a command, the last line that it printed, and its status."""
    with tempfile.TemporaryFile() as out:
        start = time.monotonic()
        child = subprocess.Popen(words, stdout=out)
        _, status, usage = os.wait4(child.pid, 0)
        seconds = time.monotonic() - start
        child.returncode = os.waitstatus_to_exitcode(status)
        out.seek(0, os.SEEK_END)
        out.seek(max(0, out.tell() - 200))
        lines = out.read().decode("latin-1").splitlines()
    return seconds, usage.ru_maxrss / 1024, lines[-1] if lines else "", child.returncode


def cat_seconds(path):
    start = time.monotonic()
    with open(os.devnull, "wb") as nowhere:
        subprocess.run(["cat", path], stdout=nowhere, check=True)
    return time.monotonic() - start


def measure(path, pages, kind):
    write_file(path, pages, kind)
    cat_seconds(path)
    cat = min(cat_seconds(path) for _ in range(5))
    runs = [timed([PROGRAM, "check", path]) for _ in range(5)]
    check, memory, last, status = min(runs)
    # A check that ended without its report measures nothing.
    if status != (0 if kind == "sound" else 1) or not last.startswith("Msg 8989: "):
        sys.exit(f"{kind}: check ended with status {status}: {last}")
    print(f"{kind:10}  cat {cat:.2f} s  check {check:.2f} s  ratio {check / cat:.2f}  {memory:.0f} MiB  {last}", flush=True)


def main():
    pages = int(sys.argv[1]) if len(sys.argv) > 1 else 131072
    # Without words the program ends at once; it is built first where it isn't.
    subprocess.run([os.path.join(TOP, "checkdb")], stderr=subprocess.DEVNULL)
    with tempfile.TemporaryDirectory() as folder:
        for kind in sys.argv[2:] or KINDS:
            measure(os.path.join(folder, "data"), pages, kind)


if __name__ == "__main__":
    main()

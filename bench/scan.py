#!/usr/bin/env python3
"""Times the parallel scan of a large file beside `cat` and `checkdb check` of the same file, all from the page cache and
one right behind the other: the sound file of `large.py`, with 1, 2 and 4 workers, and with one reader without threads,
which is what `check` does.

    bench/scan.py [PAGES ..]     files of so many pages; 131,072 (1 GiB) and 524,288 (4 GiB) where none is named

For each file it prints how many processors there are, the seconds of `cat`, and of each check the seconds, their ratio
to `cat`, and the most memory that was held. The yardstick on four idle processors: with 4 workers at most 0.8 of the
time of `cat`, with 1 at most 1.1 of that of `check`; and never more than twice the memory of 1 worker.
"""
import os
import subprocess
import sys
import tempfile

from large import PROGRAM, TOP, cat_seconds, timed, write_file

SCAN = os.path.join(TOP, "crates", "scan_bench", "out", "scan_bench")
WORKERS = {0: "one reader", 1: "1 worker", 2: "2 workers", 4: "4 workers"}
ROUNDS = 5


def run(what, words, last):
    seconds, memory, line, status = timed(words)
    # A check that ended without its report measures nothing.
    if status != 0 or not line.startswith(last):
        sys.exit(f"{what} ended with status {status}: {line}")
    return seconds, memory


def measure(path, pages):
    write_file(path, pages, "sound")
    cat_seconds(path)
    kinds = {"check": ([PROGRAM, "check", path], "Msg 8989: ")}
    for workers, what in WORKERS.items():
        kinds[what] = ([SCAN, path, str(workers)], "0 errors")
    cats, times = [], {what: [] for what in kinds}
    for _ in range(ROUNDS):
        cats.append(cat_seconds(path))
        for what, (words, last) in kinds.items():
            times[what].append(run(what, words, last))
    cat = min(cats)
    print(f"{pages} pages, {os.cpu_count()} processors: cat {cat:.2f} s", flush=True)
    for what, runs in times.items():
        seconds, memory = min(runs)
        print(f"  {what:10}  {seconds:.2f} s  ratio {seconds / cat:.2f}  {memory:.0f} MiB", flush=True)


def main():
    # Without words both programs end at once; they are built first where they aren't.
    subprocess.run([os.path.join(TOP, "checkdb")], stderr=subprocess.DEVNULL)
    subprocess.run(["rt", "run"], cwd=os.path.join(TOP, "crates", "scan_bench"), stdout=subprocess.DEVNULL)
    with tempfile.TemporaryDirectory() as folder:
        for pages in [int(word) for word in sys.argv[1:]] or [131072, 524288]:
            measure(os.path.join(folder, "data"), pages)


if __name__ == "__main__":
    main()

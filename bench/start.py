#!/usr/bin/env python3
"""How long a start takes: from the start of the process to the reply to its first line, over a log of many operations.

Usage: bench/start.py FOLDER [COUNT]

Plays COUNT (1,000 by default) appends of one short row each into one table. Then `bin/seatable play` is started eleven
times on the base that they made, each time with one `sql` line. Beside it stand two floors:

- file: a process (`cat`) that reads the same log from its front to its end, timed from its start to its end;
- json: Python's `json` reading the texts of the log's operations once, in a process that runs already.

Works in a new folder below FOLDER, which is removed. Prints the milliseconds of a start, the median of all, and the ratios.
The log was written a moment ago, so its bytes come from the system's memory. The figures are of one machine.
"""
import json
import os
import subprocess
import sys
import time

from playing import Playing, median_ms, new_folder

TABLE = b'op {"op":"insert_table","table":"T","columns":[{"name":"Name","type":"text"}]}\n'
ROW = b'op {"op":"append_rows","table":"T","rows":[{"Name":"order 4711"}]}\n'
SELECT = b"sql SELECT * FROM T\n"
STARTS = 11


def make(box, count):
    """Makes a base by `count` appends."""
    with Playing(box) as play:
        play.say(TABLE)
        for _ in range(count):
            play.say(ROW)


def start(box):
    """Seconds from the start of the program to the reply to its first line."""
    begin = time.monotonic()
    with Playing(box) as play:
        play.say(SELECT, b'{"columns":')
        seconds = time.monotonic() - begin
    return seconds


def read_by_process(log):
    """Seconds that a process takes to read a file."""
    begin = time.monotonic()
    subprocess.run(["cat", log], stdout=subprocess.DEVNULL, check=True)
    return time.monotonic() - begin


def op_texts(log):
    """The texts of a log's operations, by the records of docs/formats.md."""
    texts, at = [], 0
    while log[at] == 1:
        begin, length = at + 5, int.from_bytes(log[at + 1 : at + 5], "big")
        user = int.from_bytes(log[begin + 17 : begin + 21], "big")
        texts.append(log[begin + 25 + user : begin + length])
        at = begin + length
    return texts


def read_as_json(texts):
    """Seconds that Python's `json` takes to read some texts."""
    begin = time.monotonic()
    for text in texts:
        json.loads(text)
    return time.monotonic() - begin


def main():
    if len(sys.argv) not in (2, 3):
        raise SystemExit(__doc__)
    count = int(sys.argv[2]) if len(sys.argv) == 3 else 1000
    with new_folder(sys.argv[1]) as folder:
        box = os.path.join(folder, "box")
        make(box, count)
        path = os.path.join(box, "log0")
        with open(path, "rb") as file:
            log = file.read()
        texts = op_texts(log)
        mine = median_ms([start(box) for _ in range(STARTS)])
        rows = [
            ("file", median_ms([read_by_process(path) for _ in range(STARTS)])),
            ("json", median_ms([read_as_json(texts) for _ in range(STARTS)])),
        ]
    print(f"log of {len(log):,} bytes, {len(texts):,} operations")
    print(f"jamunhatch  {mine:8.2f} ms")
    for name, floor in rows:
        print(f"{name:11} {floor:8.2f} ms   jamunhatch takes {mine / floor:.1f} times as long")


if __name__ == "__main__":
    main()

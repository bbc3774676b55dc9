#!/usr/bin/env python3
"""How long an operation of many rows takes: read, checked, written again and applied.

Usage: bench/operations.py FOLDER [COUNT]

Plays COUNT (20 by default) append_rows of 1,000 rows with ten text cells each, every one into a new table, through one
`bin/seatable play`, and waits for each reply. FOLDER should lie in memory (as below /dev/shm), so that the disk's syncs
don't count. Beside it stands what Python's `json` needs to read the same line and to write it again.

Works in a new folder below FOLDER, which is removed. Prints the milliseconds of one operation, the median of all, and the
ratio. The figures are of one machine.
"""
import json
import os
import sys
import time

from playing import Playing, median_ms, new_folder

NAMES = [f"Column {n}" for n in range(10)]


def table_line(number):
    columns = [{"name": name, "type": "text"} for name in NAMES]
    op = {"op": "insert_table", "table": f"T{number}", "columns": columns}
    return f"op {json.dumps(op)}\n".encode()


def rows_text(number):
    rows = [{name: f"cell {row} of {name}" for name in NAMES} for row in range(1000)]
    return json.dumps({"op": "append_rows", "table": f"T{number}", "rows": rows})


def main():
    if len(sys.argv) not in (2, 3):
        raise SystemExit(__doc__)
    count = int(sys.argv[2]) if len(sys.argv) == 3 else 20
    played, alone = [], []
    with new_folder(sys.argv[1]) as folder, Playing(os.path.join(folder, "box")) as play:
        for number in range(count):
            play.say(table_line(number))
            text = rows_text(number)
            line = f"op {text}\n".encode()
            begin = time.monotonic()
            play.say(line)
            played.append(time.monotonic() - begin)
            begin = time.monotonic()
            json.dumps(json.loads(text), sort_keys=True, separators=(",", ":"))
            alone.append(time.monotonic() - begin)
    mine, python = median_ms(played), median_ms(alone)
    print(f"line of {len(rows_text(0)):,} bytes, 1,000 rows of ten cells")
    print(f"jamunhatch     {mine:6.2f} ms")
    print(f"python's json  {python:6.2f} ms   jamunhatch takes {mine / python:.2f} of it")


if __name__ == "__main__":
    main()

#!/usr/bin/env python3
"""How many appends a second are safe on the disk before they are acknowledged.

Usage: bench/durable.py FOLDER [COUNT]

Each of COUNT (200 by default) appends one short row and waits until it is safe:

- jamunhatch: one `op` line of `bin/seatable play`, whose reply is awaited;
- floor: two small writes to one file, each with a data sync, which is the least that a log with gates does;
- floor, pipes: the same by another process, which is asked and answers through pipes, as `play` is;
- sqlite3 in its `delete` and `wal` journal modes, with `synchronous=FULL`: one insert in a transaction of its own.

All work in new folders below FOLDER, which are removed. Prints operations a second, and jamunhatch's share of each other
row. The figures are of one machine and its disk.
"""
import os
import sqlite3
import sys
import time

from playing import Playing, new_folder

TABLE = b'op {"op":"insert_table","table":"T","columns":[{"name":"Name","type":"text"}]}\n'
ROW = b'op {"op":"append_rows","table":"T","rows":[{"Name":"order 4711"}]}\n'


def jamunhatch(folder, count):
    """Seconds that `count` appends through the program take."""
    with Playing(os.path.join(folder, "box")) as played:
        played.say(TABLE)
        begin = time.monotonic()
        for _ in range(count):
            played.say(ROW)
        seconds = time.monotonic() - begin
    return seconds


def floor(folder, count):
    """Seconds that `count` times two small writes with a data sync each take."""
    file = os.open(os.path.join(folder, "log"), os.O_RDWR | os.O_CREAT)
    record = b"\0" * 130
    place = 0
    begin = time.monotonic()
    for _ in range(count):
        os.pwrite(file, record, place + 1)
        os.fdatasync(file)
        os.pwrite(file, b"\1", place)
        os.fdatasync(file)
        place += len(record)
    seconds = time.monotonic() - begin
    os.close(file)
    return seconds


def floor_behind_pipes(folder, count):
    """The same two writes and syncs, by a process that is asked and answers through pipes, as `play` is."""
    asks, asked = os.pipe()
    answers, answered = os.pipe()
    child = os.fork()
    if child == 0:
        os.close(asked)
        os.close(answers)
        file = os.open(os.path.join(folder, "log"), os.O_RDWR | os.O_CREAT)
        record = b"\0" * 130
        place = 0
        while os.read(asks, 65_536):
            os.pwrite(file, record, place + 1)
            os.fdatasync(file)
            os.pwrite(file, b"\1", place)
            os.fdatasync(file)
            place += len(record)
            os.write(answered, b'{"version":1}\n')
        os._exit(0)
    os.close(asks)
    os.close(answered)
    begin = time.monotonic()
    for _ in range(count):
        os.write(asked, ROW)
        os.read(answers, 65_536)
    seconds = time.monotonic() - begin
    os.close(asked)
    os.waitpid(child, 0)
    os.close(answers)
    return seconds


def sqlite(folder, count, mode):
    """Seconds that `count` inserts into an SQLite file in this journal mode take."""
    base = sqlite3.connect(os.path.join(folder, "base.db"), isolation_level=None)
    base.execute(f"PRAGMA journal_mode={mode}")
    base.execute("PRAGMA synchronous=FULL")
    base.execute("CREATE TABLE t (id INTEGER PRIMARY KEY, name TEXT)")
    begin = time.monotonic()
    for _ in range(count):
        base.execute("INSERT INTO t (name) VALUES ('order 4711')")
    seconds = time.monotonic() - begin
    base.close()
    return seconds


def main():
    if len(sys.argv) not in (2, 3):
        raise SystemExit(__doc__)
    count = int(sys.argv[2]) if len(sys.argv) == 3 else 200
    rows = [
        ("jamunhatch", jamunhatch),
        ("floor", floor),
        ("floor, pipes", floor_behind_pipes),
        ("sqlite3 delete", lambda folder, n: sqlite(folder, n, "delete")),
        ("sqlite3 wal", lambda folder, n: sqlite(folder, n, "wal")),
    ]
    rates = {}
    for name, measure in rows:
        with new_folder(sys.argv[1]) as folder:
            rates[name] = count / measure(folder, count)
    for name, rate in rates.items():
        print(f"{name:15} {rate:10.1f} a second   jamunhatch is {rates['jamunhatch'] / rate:.2f} of it")


if __name__ == "__main__":
    main()

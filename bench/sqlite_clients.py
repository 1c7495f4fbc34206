"""sqlite_clients.py DATABASE COUNT MILLISECONDS LEVEL: has so many processes commit to a database of SQLite at once, in WAL mode at this level of
`synchronous`, for so long; prints how many commits a second they made together."""

import multiprocessing
import sqlite3
import sys
import time


def work(database, number, seconds, level, ready, made):
    """Commits of a row each."""
    to = sqlite3.connect(database, timeout=60, isolation_level=None)
    to.execute(f'pragma synchronous={level}')
    ready.wait()
    end = time.monotonic() + seconds
    count = 0
    while time.monotonic() < end:
        to.execute('insert or replace into name values (?, ?)', (number * 1000 + count % 20, b'x' * 100))
        count += 1
    with made.get_lock():
        made.value += count


def main():
    database, count, milliseconds, level = sys.argv[1:]
    to = sqlite3.connect(database, timeout=60, isolation_level=None)
    to.execute('pragma journal_mode=wal')
    to.execute('create table if not exists name (number integer primary key, data blob)')
    to.close()
    ready = multiprocessing.Barrier(int(count) + 1)
    made = multiprocessing.Value('l', 0)
    clients = [multiprocessing.Process(target=work, args=(database, at, int(milliseconds) / 1000, level, ready, made)) for at in range(int(count))]
    for client in clients:
        client.start()
    ready.wait()
    begun = time.monotonic()
    for client in clients:
        client.join()
    print(f'{made.value / (time.monotonic() - begun):.0f}')
    sys.exit(any(client.exitcode for client in clients))


main()

"""sqlite_kills.py LAUNCHER WORK KILLS [OPTION..]: SQLite commits while the server is killed, in both journal modes by turns; a commit that was
answered is there behind the next mount, which has these options, and the database is whole."""

import random
import sqlite3
import subprocess
import sys
import threading

from serving import Served

COMMITS = '''
import sqlite3, sys
database = sqlite3.connect(sys.argv[1])
database.execute('pragma journal_mode=' + sys.argv[2])
database.execute('pragma synchronous=' + sys.argv[3])
database.execute('create table if not exists commits(number integer primary key, text)')
database.commit()
number = database.execute('select max(number) from commits').fetchone()[0] or 0
while True:
    number += 1
    database.execute('insert into commits values(?, ?)', (number, 'x' * 300))
    database.commit()
    print(number, flush=True)
'''


def look(path):
    """What the integrity check says, and the last commit."""
    database = sqlite3.connect(path)
    try:
        whole = database.execute('pragma integrity_check').fetchone()[0]
        return whole, database.execute('select max(number) from commits').fetchone()[0] or 0
    except sqlite3.OperationalError as error:
        # The table itself wasn't committed yet.
        return ('ok', 0) if 'no such table' in str(error) else (str(error), 0)
    finally:
        database.close()


launcher, work, kills = sys.argv[1], sys.argv[2], int(sys.argv[3])
# Where a removed name isn't kept at once, `extra` syncs the directory behind the journal's.
level = 'extra' if sys.argv[4:] else 'full'
served = Served(launcher, work, 'sqlite', ['--blocks', '64M', '--inodes', '1k', '--half', '1M'], sys.argv[4:])
times = random.Random(3)
commits = 0
lost = 0
served.start()
for turn in range(kills):
    mode = 'wal' if turn % 2 else 'delete'
    path = f'{served.folder}/{mode}.db'
    before = look(path)[1]
    writer = subprocess.Popen([sys.executable, '-c', COMMITS, path, mode, level], stdout=subprocess.PIPE, stderr=subprocess.DEVNULL, text=True)
    killer = threading.Timer(times.uniform(0.3, 1.5), served.kill)
    killer.start()
    answered = before
    for line in writer.stdout:
        answered = int(line)
    writer.wait()
    killer.join()
    commits += answered - before
    served.check()
    served.start()
    whole, found = look(path)
    if whole != 'ok' or found < answered:
        lost += 1
        print(f'kill {turn}, mode {mode}: {whole}, the last commit is {found}, and {answered} was answered')
served.stop()
served.check()
print(f'{kills} kills, {commits} commits answered, {lost} lost')
sys.exit(lost != 0)

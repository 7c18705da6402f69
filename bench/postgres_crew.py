"""Workers of bench/postgres.py, each a process that is killed and begun anew.

Usage: postgres_crew.py WHERE WHO FILE     is one of them: where the server is, its number, and the file in which it tells what is stored
"""
import logging
import os
import pathlib
import signal
import subprocess
import sys
import time

import psycopg

from measuring import TOP

sys.path[:0] = [str(TOP / "examples/postgres"), str(TOP / "bindings/python")]
import office  # noqa: E402


def worker(where, who, path):
    """Works until no case is open; writes a line to the file once a step is stored. Where the server goes away it waits for it."""
    logging.getLogger("psycopg").setLevel(logging.ERROR)
    noted = os.open(path, os.O_WRONLY | os.O_APPEND | os.O_CREAT)
    while True:
        try:
            with psycopg.connect(where, autocommit=True) as db:
                while db.execute("SELECT 1 FROM case_ WHERE state = 'open' LIMIT 1").fetchone():
                    office.work(db, who, told=lambda case, what: os.write(noted, f"{case} {what}\n".encode()))
                    time.sleep(0.01)
                return
        except (psycopg.OperationalError, psycopg.InterfaceError):
            time.sleep(0.05)


class Crew:
    """Workers, each a process, the last of them on hosts. All are gone afterwards."""

    def __init__(self, server, folder, count, hosts):
        self.server, self.folder, self.kills, self.cuts = server, folder, 0, 0
        first = count - len(hosts) + 1
        self.hosts = {who: hosts[who - first] for who in range(first, count + 1)}
        self.running, self.noted = {}, {}
        for who in range(1, count + 1):
            self.begin(who)

    def __enter__(self):
        return self

    def __exit__(self, *_):
        self.end()

    def end(self):
        for child in self.running.values():
            child.kill()
            child.wait()

    def path(self, who):
        return pathlib.Path(f"{self.folder}/told.{who}")

    def begin(self, who):
        host = self.hosts.get(who)
        words = [sys.executable, os.path.abspath(__file__), self.server.where(host.outside if host else "127.0.0.1")]
        words += [str(who), str(self.path(who))]
        self.path(who).touch()
        self.noted[who] = self.path(who).stat().st_size
        self.running[who] = subprocess.Popen(host.words(*words) if host else words)

    def disturb(self, rng):
        """Kills a worker that has stored a step since it was begun, and begins it anew; or cuts a wire for a while."""
        if self.hosts and rng.random() < 0.3:
            host = rng.choice(list(self.hosts.values()))
            host.cut()
            time.sleep(rng.uniform(0.1, 2))
            host.join()
            self.cuts += 1
            return
        able = [who for who, size in self.noted.items() if self.path(who).stat().st_size > size]
        if able:
            who = rng.choice(able)
            self.running[who].send_signal(signal.SIGKILL)
            self.running[who].wait()
            self.begin(who)
            self.kills += 1

    def wait(self):
        for child in self.running.values():
            child.wait()


if __name__ == "__main__":
    worker(sys.argv[1], int(sys.argv[2]), sys.argv[3])

#!/usr/bin/env python3
"""A job engine on four processes: they share a desk at a server, and one of them dies in the midst of a job. README.md explains it.

    python3 examples/server/engine.py [SOCKET ..]

Without a SOCKET it starts a server of its own; several are those of replicas. engine.out has what this prints.
"""

import os
import signal
import subprocess
import sys
import tempfile
from pathlib import Path

PACKAGE = Path(__file__).resolve().parents[2] / "clients" / "python"
sys.path.insert(0, str(PACKAGE))

from stmdesk import Desk, OutcomeUnknown, connect, or_else

# Each job, and those that it needs. A job's result is its number, and the results of these.
JOBS = {1: [], 2: [], 3: [1], 4: [1, 2], 5: [2], 6: [3, 4], 7: [5], 8: [6, 7], 9: [4], 10: [8, 9], 11: [], 12: [11, 10]}
WORKERS = 4
WAITS, DONE = 0, 9  # the states of a job; a number between them is the worker that runs it
DIES = 5  # the job whose first try ends its worker


def begin(job: int, worker: int) -> str:
    """Waits until the job can run, and takes it for the worker."""
    reads = "".join(f"n{it} <- readTVar s{it}; " for it in JOBS[job])
    ready = " && ".join([f"s == {WAITS}", *(f"n{it} == {DONE}" for it in JOBS[job])])
    return f"""do {{ s <- readTVar s{job}; {reads}t <- readTVar t{job};
        if {ready} then do {{ writeTVar s{job} {worker}; writeTVar t{job} (t + 1); return {job} }} else retry }}"""


def end(job: int, result: int) -> str:
    return f"do {{ writeTVar r{job} {result}; writeTVar s{job} {DONE} }}"


def give_back(worker: int) -> str:
    """Lets the jobs wait again that a worker has and doesn't go on with."""
    each = (f"a{it} <- readTVar s{it}; if a{it} == {worker} then writeTVar s{it} {WAITS} else return ()" for it in JOBS)
    return f"do {{ {'; '.join(each)} }}"


def all_over() -> str:
    each = (f"a{it} <- readTVar s{it}; if a{it} == {DONE} then return () else retry; " for it in JOBS)
    return f"do {{ {''.join(each)}return 0 }}"


def sure(desk: Desk, block: str) -> None:
    """Runs a block that may run twice."""
    while True:
        try:
            desk.atomically(block)
            return
        except OutcomeUnknown:
            pass


def work(worker: int, paths: list[str]) -> None:
    """The process of a worker."""
    take = or_else(*(begin(it, worker) for it in JOBS), all_over())
    with connect(*paths, reconnect=True) as desk:
        sure(desk, give_back(worker))  # of one that had this number before
        while True:
            try:
                job = desk.atomically(take, returns=int)
            except OutcomeUnknown:  # perhaps it has a job and doesn't know which
                sure(desk, give_back(worker))
                continue
            if job == 0:
                return
            if job == DIES and desk.value(f"t{job}") == 1:
                os.kill(os.getpid(), signal.SIGKILL)
            needed = [desk.value(f"r{it}") for it in JOBS[job]]
            sure(desk, end(job, job + sum(it for it in needed if isinstance(it, int))))


def started(worker: int, paths: list[str]) -> subprocess.Popen[bytes]:
    return subprocess.Popen([sys.executable, __file__, "--worker", str(worker), *paths])


def run(paths: list[str]) -> None:
    with connect(*paths, reconnect=True) as desk:
        for job in JOBS:
            for name in "srt":  # its state, its result, its tries
                desk.variable(f"{name}{job} : Int = 0")
        workers = {number: started(number, paths) for number in range(1, WORKERS + 1)}
        died = 0
        while workers:
            pid, status = os.wait()
            for number, it in list(workers.items()):
                if it.pid == pid:
                    it.returncode = status
                    del workers[number]
                    if os.WIFSIGNALED(status):  # then another process takes its place
                        died += 1
                        workers[number] = started(number, paths)
                    elif status:
                        raise RuntimeError(f"worker {number} failed")
        for job in JOBS:
            print(f"job {job}: {desk.value(f'r{job}')} after {desk.value(f't{job}')} tries")
        print(f"{died} worker died, {len(desk.show())} blocks wait")


def main() -> None:
    if sys.argv[1:2] == ["--worker"]:
        work(int(sys.argv[2]), sys.argv[3:])
    elif sys.argv[1:]:
        run(sys.argv[1:])
    else:
        with tempfile.TemporaryDirectory() as folder:
            path = f"{folder}/socket"
            environment = {**os.environ, "PYTHONPATH": str(PACKAGE)}
            server = subprocess.Popen([sys.executable, "-m", "stmdesk.server", "--journal", f"{folder}/journal", path], env=environment,
                                      start_new_session=True, stderr=subprocess.DEVNULL)  # fmt: skip
            try:
                run([path])
            finally:
                server.terminate()
                server.wait()


if __name__ == "__main__":
    main()

"""Runs a program under limits and says how it went."""
import os
import resource
import signal
import time
from typing import NamedTuple

MOST_READ = 1 << 26  # bytes of output that are looked at


class Run(NamedTuple):
    status: int  # the exit status, or minus the signal
    out: bytes
    err: bytes
    seconds: float
    peak: int  # KiB; never below what the driver itself holds, see README.md
    late: bool  # ended by the time limit

    def crashed(self):
        return self.status < 0 and not self.late


def limit_memory(most):
    """Limits the address space of this process and so of all that it starts; no core files."""
    hard = resource.getrlimit(resource.RLIMIT_AS)[1]
    resource.setrlimit(resource.RLIMIT_AS, (most, hard))
    resource.setrlimit(resource.RLIMIT_CORE, (0, resource.getrlimit(resource.RLIMIT_CORE)[1]))


class Runner:
    def __init__(self, scratch):
        self.out = os.path.join(scratch, "out")
        self.err = os.path.join(scratch, "err")

    def run(self, argv, limit):
        flags = os.O_WRONLY | os.O_CREAT | os.O_TRUNC
        files = [
            (os.POSIX_SPAWN_OPEN, 0, os.devnull, os.O_RDONLY, 0),
            (os.POSIX_SPAWN_OPEN, 1, self.out, flags, 0o644),
            (os.POSIX_SPAWN_OPEN, 2, self.err, flags, 0o644),
        ]
        late = False
        begin = time.monotonic()
        pid = os.posix_spawn(argv[0], argv, os.environ, file_actions=files, setpgroup=0)

        def ring(_signal, _frame):
            nonlocal late
            late = True
            os.killpg(pid, signal.SIGKILL)  # the group that this run began, and no other

        before = signal.signal(signal.SIGALRM, ring)
        signal.setitimer(signal.ITIMER_REAL, limit)
        try:
            _, code, usage = os.wait4(pid, 0)
        finally:
            signal.setitimer(signal.ITIMER_REAL, 0)
            signal.signal(signal.SIGALRM, before)
        seconds = time.monotonic() - begin
        status = os.waitstatus_to_exitcode(code)
        with open(self.out, "rb") as out, open(self.err, "rb") as err:
            return Run(status, out.read(MOST_READ), err.read(MOST_READ), seconds, usage.ru_maxrss, late)

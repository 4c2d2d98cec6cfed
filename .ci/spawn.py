"""Runs a program on bytes in memory, many times a second, and says what it printed, read and took."""
import os
import shutil
import signal
import tempfile
from dataclasses import dataclass
from pathlib import Path

TOP = Path(__file__).resolve().parent.parent
EXAMPLES = TOP / "examples"
SECONDS = 60  # a run that takes longer is killed, which its status shows


def read(name):
    with open(name, "rb") as file:
        return file.read()


@dataclass
class Ran:
    status: int  # below 0 the signal that ended it
    out: bytes
    err: bytes
    read: int
    seconds: float

    def said(self):
        return self.status, self.out, self.err


class Spawner:
    """A program in a folder of its own, the working folder from then on until the end of a `with`."""

    def __init__(self, program, preload=None):
        self.program = str(Path(program).resolve())
        self.folder = tempfile.mkdtemp(prefix="maxpressure-", dir="/dev/shm" if os.path.isdir("/dev/shm") else None)
        os.chdir(self.folder)
        self.ports = [os.memfd_create(name) for name in ("input", "output", "error", "shared")]
        os.ftruncate(self.ports[3], 4096)
        self.environment = {"LD_PRELOAD": str(preload)} if preload else {}
        self.child = 0
        signal.signal(signal.SIGALRM, lambda *_: os.kill(self.child, signal.SIGKILL))

    def __enter__(self):
        return self

    def __exit__(self, *_):
        os.chdir(TOP)
        shutil.rmtree(self.folder)
        for port in self.ports:
            os.close(port)

    def write(self, name, data):
        with open(name, "wb") as file:
            file.write(data)

    def ask(self, command, data=b""):
        """The answer to a command. The file behind < goes to the standard input, and the data behind it."""
        words, _, feed = command.partition(" < ")
        return self.run(words.split(), (read(feed) if feed else b"") + data)

    def run(self, words, data=b""):
        feed, out, err, shared = self.ports
        for port in (feed, out, err):
            os.ftruncate(port, 0)
            os.lseek(port, 0, os.SEEK_SET)
        os.pwrite(feed, data, 0)
        actions = [(os.POSIX_SPAWN_DUP2, port, number) for number, port in enumerate((feed, out, err))]
        if self.environment:
            actions.append((os.POSIX_SPAWN_DUP2, shared, 3))
        self.child = os.posix_spawn(self.program, ["maxpressure", *words], self.environment, file_actions=actions)
        signal.setitimer(signal.ITIMER_REAL, SECONDS)
        # The number stays the child's until wait4, so the alarm can't hit another process.
        os.waitid(os.P_PID, self.child, os.WEXITED | os.WNOWAIT)
        signal.setitimer(signal.ITIMER_REAL, 0)
        _, status, used = os.wait4(self.child, 0)
        return Ran(
            os.waitstatus_to_exitcode(status),
            os.pread(out, os.fstat(out).st_size, 0),
            os.pread(err, os.fstat(err).st_size, 0),
            os.lseek(feed, 0, os.SEEK_CUR),
            used.ru_utime + used.ru_stime,
        )

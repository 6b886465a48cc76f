"""Runs of a built program from a script: quick to start, and measured."""
import dataclasses
import os
import resource
import signal
import subprocess

# GNU time, which measures what it starts by the system's own count. This script can't: what it starts begins with its own memory, which
# is too large.
TIME = "/usr/bin/time"
# The size at which a file is full, if a stream has a capacity: one with a capacity of j bytes begins j bytes before it.
FULL = 1 << 26


@dataclasses.dataclass
class Answer:
    status: int
    output: bytes
    log: bytes
    seconds: float = dataclasses.field(default=0.0, compare=False)  # processor time, if it is measured
    kilobytes: int = dataclasses.field(default=0, compare=False)  # the greatest memory, of 1,024 bytes each

    def __str__(self):
        return f"status {self.status}, output {self.output[:200]!r}, log {self.log[:200]!r}"


class NoEnd(Exception):
    """The program did not end in time."""


def answer(program, words, text):
    """Status, output and log of a program, which may be several words, on this text."""
    ran = subprocess.run([*program, *words], input=text, capture_output=True, text=True, timeout=60)
    return ran.returncode, ran.stdout, ran.stderr


def on_alarm(*_):
    raise NoEnd


class Runner:
    """Runs programs on files that are in memory, one run at a time."""

    def __init__(self, seconds=60):
        self.seconds = seconds
        self.input, self.output, self.log, *self.files = (os.memfd_create("stream") for _ in range(8))
        signal.signal(signal.SIGALRM, on_alarm)

    def fill(self, file, text):
        os.ftruncate(file, 0)
        os.pwrite(file, text, 0)

    def give(self, text):
        """Sets what the next runs find on standard input."""
        self.fill(self.input, text)

    def named(self, texts):
        """Files with these texts, at most five, by the names under which a program can open them."""
        for file, text in zip(self.files, texts):
            self.fill(file, text)
        return [f"/proc/{os.getpid()}/fd/{file}" for file, _ in zip(self.files, texts)]

    def run(self, words, output_capacity=None, log_capacity=None):
        """The answer of the program, the first of the words. A stream with a capacity takes that many bytes, and then fails."""
        capacities = {self.output: output_capacity, self.log: log_capacity}
        for file, capacity in capacities.items():
            os.ftruncate(file, 0)
            os.lseek(file, begin(capacity), os.SEEK_SET)
        os.lseek(self.input, 0, os.SEEK_SET)
        status = self.ended(words, any(capacity is not None for capacity in capacities.values()))
        output, log = (written(file, begin(capacity)) for file, capacity in capacities.items())
        return Answer(status, output, log)

    def measure(self, words, space=None):
        """The answer of the program, with the time and the memory that it took. With a space it may map that many kB, used or not."""
        (path,) = self.named([b""])
        limited = ["/bin/sh", "-c", f'ulimit -v {space}; exec "$@"', "sh"] if space else []
        answer = self.run([TIME, "-q", "-f", "%U %S %M", "-o", path, *limited, *words])
        user, system, kilobytes = written(self.files[0], 0).split()
        answer.seconds, answer.kilobytes = float(user) + float(system), int(kilobytes)
        return answer

    def ended(self, words, is_limited):
        """Runs the program to its end, and returns its status."""
        streams = [(os.POSIX_SPAWN_DUP2, file, to) for to, file in enumerate((self.input, self.output, self.log))]
        usual = resource.getrlimit(resource.RLIMIT_FSIZE)
        # The program has the limits of this script. Python leaves SIGXFSZ ignored, so a write answers EFBIG.
        if is_limited:
            resource.setrlimit(resource.RLIMIT_FSIZE, (FULL, usual[1]))
        child = os.posix_spawn(words[0], words, os.environ, file_actions=streams)
        resource.setrlimit(resource.RLIMIT_FSIZE, usual)
        signal.setitimer(signal.ITIMER_REAL, self.seconds)
        try:
            _, status = os.waitpid(child, 0)
        except NoEnd:
            os.kill(child, signal.SIGKILL)
            os.waitpid(child, 0)
            raise
        finally:
            signal.setitimer(signal.ITIMER_REAL, 0)
        return os.waitstatus_to_exitcode(status)


def begin(capacity):
    return 0 if capacity is None else FULL - capacity


def written(file, first):
    """What is in the file from this byte on."""
    return os.pread(file, max(0, os.fstat(file).st_size - first), first)

"""How the desk finds the program `roster`, and calls it. Each call gets the texts on standard input."""
import collections.abc
import ctypes
import dataclasses
import os
import re
import select
import signal
import subprocess
import sys
import typing

from desk_lib.cutting import cut, too_many
from desk_lib.grammar import Fault, Words, read_bundle
from desk_lib.model import Plan, plan_of
from desk_lib.texts import DeskError, Texts, shown

TOP = os.path.dirname(os.path.dirname(os.path.realpath(__file__)))
VARIABLE = "DESK_ROSTER"
LIBC = ctypes.CDLL(None)
# (the number of this call of prctl, which Python doesn't name)
SET_DEATH_SIGNAL = 1
# How much of a log is read at once, in bytes.
AT_ONCE = 65_536
# How long texts may be in which the desk looks for what the program's line of a fault doesn't say, in bytes.
LOOKED_THROUGH = 1_000_000
# A fault line of the program that names a line.
LINE = re.compile(r"line (\d+): (.*)", re.S)


@dataclasses.dataclass
class Answer:
    """What the program answered: its status, its output, and its log by lines."""

    status: int
    output: bytes
    log: list[bytes]

    def end(self) -> bytes:
        """The last line of the log of a run."""
        if not self.log:
            raise DeskError("the program ended a run and said nothing of it; --roster names the program roster", 3)
        return self.log[-1]

    def last(self) -> str:
        return shown(self.log[-1]) if self.log else f"status {self.status}"


OnLine = collections.abc.Callable[[bytes], None]


class Running:
    """The program at work. Used by `with`, it doesn't go on afterwards.

    The text and the output lie in memory. The program has a process group of its own: Ctrl-C is the desk's alone; and it ends
    with the desk, however that ends, or after that many seconds, if a number is given.
    """

    def __init__(self, path: str, words: list[str], text: bytes, seconds: float = 0):
        self.words, self.rest, self.is_over = words, b"", False
        self.log: list[bytes] = []
        self.output, desk = open(os.memfd_create("output"), "w+b"), os.getpid()
        with open(os.memfd_create("input"), "w+b") as given:
            given.write(text)
            given.seek(0)
            try:
                self.ran = subprocess.Popen(
                    [path, *words],
                    bufsize=0,
                    stdin=given,
                    stdout=self.output,
                    stderr=subprocess.PIPE,
                    preexec_fn=lambda: tie_to(desk, seconds),
                )
            except OSError as why:
                raise DeskError(f"{shown(path)} can't be run: {why.strerror}; --roster names the program", 3) from None
        assert self.ran.stderr
        self.stderr: typing.IO[bytes] = self.ran.stderr

    def __enter__(self) -> "Running":
        return self

    def __exit__(self, *_: object) -> None:
        self.close()

    def kill(self) -> None:
        """Ends it, if it goes on. What it has written of its log can still be read."""
        if self.ran.poll() is None:
            self.ran.kill()
            self.ran.wait()

    def close(self) -> None:
        """Ends it, and leaves nothing to read."""
        self.kill()
        self.stderr.close()
        self.output.close()

    def lines(self) -> list[bytes]:
        """The lines of the log that have come since. Waits for some; if none come any more, the run is over."""
        data = self.stderr.read(AT_ONCE)
        *lines, self.rest = (self.rest + data).split(b"\n")
        if not data:
            self.is_over, lines = True, [self.rest] if self.rest else []
        self.log += lines
        return lines

    def lines_there(self) -> list[bytes]:
        """As `lines`, and waits for none. What has no line end is left out: the program may have been ended within it."""
        found: list[bytes] = []
        while not self.is_over and select.select([self.stderr], [], [], 0)[0]:
            lines = self.lines()
            found += [] if self.is_over else lines
        return found

    def answer(self) -> Answer:
        """What the program answered, once it is over."""
        status = self.ran.wait()
        self.output.seek(0)
        return Answer(status, self.output.read(), self.log)

    def taken(self, texts: Texts) -> Answer:
        """As `answer`, and a refusal is an error that names the file."""
        answer = self.answer()
        if answer.status:
            raise refusal(" ".join(self.words), answer, texts)
        return answer


def refusal(words: str, answer: Answer, texts: Texts) -> DeskError:
    """The error if the program with these words answers another status than 0."""
    if answer.status == 2:
        return unknown(words)
    if answer.status < 0:
        return DeskError(f"'roster {words.split()[0]}' was ended by {signal.Signals(-answer.status).name}", 3)
    states = too_many(texts.joined, answer.last())
    if states:
        return DeskError(f"{answer.last()}{states}", answer.status)
    message = f"{said_of(answer.last(), texts)}; 'desk check' with these files reports all that is wrong"
    return DeskError(message, answer.status)


def tie_to(desk: int, seconds: float) -> None:
    """In the new process, before it is the program: sees to it that it ends with the desk, and after some seconds if a number is given."""
    LIBC.prctl(SET_DEATH_SIGNAL, signal.SIGKILL)
    if os.getppid() != desk:
        os._exit(1)
    os.setpgid(0, 0)
    # (the alarm stays with the process when it becomes the program, and ends that)
    signal.setitimer(signal.ITIMER_REAL, seconds)


class Program:
    """The program, by the path of its file."""

    def __init__(self, path: str):
        self.path = path

    def start(self, words: list[str], text: bytes, seconds: float = 0) -> Running:
        """Begins a run over the text, in which numbers that can't bind are cut."""
        return Running(self.path, words, cut(text), seconds)

    def version(self) -> str:
        return shown(self.call(["--version"], b"").output.rstrip())

    def call(self, words: list[str], text: bytes) -> Answer:
        """Runs a command over the text."""
        with self.start(words, text) as running:
            follow(running)
            return running.answer()

    def ask(self, words: list[str], texts: Texts, on_line: OnLine | None = None) -> Answer:
        """As `call`, and a refusal is an error that names the file. Each line of the log is passed on as it comes."""
        with self.start(words, texts.joined) as running:
            follow(running, on_line)
            return running.taken(texts)

    def must_know(self, command: str) -> None:
        """Stops if the program doesn't know a command."""
        if self.call([command, "--help"], b"").status:
            raise unknown(command)


def follow(running: Running, on_line: OnLine | None = None) -> None:
    """Reads the log to its end, and passes each line on."""
    while not running.is_over:
        for line in running.lines():
            if on_line:
                on_line(line)


def unknown(command: str) -> DeskError:
    message = f"the program doesn't know 'roster {command}'; build a newer one, or leave that option out"
    return DeskError(f"{message} ('roster --help' lists its commands)", 2)


def said_of(line: str, texts: Texts) -> str:
    """A fault line of the program as `desk check` puts it, with what stands there; the program's own words if the texts are long."""
    if len(texts.joined) > LOOKED_THROUGH:
        return located(line, texts)
    # (that module needs this one)
    from desk_lib.check import first_fault

    return first_fault(texts, line)


def located(line: str, texts: Texts) -> str:
    """A fault line of the program, with its file and the line there instead of the line of all files together."""
    match = LINE.fullmatch(line)
    return f"{texts.place(texts.line_start(int(match[1])))}: {match[2]}" if match else line


def find(path: str | None) -> Program:
    """The program: the one named, or that of this repository, if it is built."""
    path = path or os.environ.get(VARIABLE)
    if path:
        # (a name without a folder is one of this folder first, and else a command)
        return known(Program(os.path.join(".", path) if os.path.exists(path) else path))
    built = f"{TOP}/out/roster"
    if not is_built(built):
        how = "isn't built yet" if not os.path.isfile(built) else "was built of other sources"
        message = f"the program roster {how}; '{TOP}/roster --version' proves and builds it, which takes some 20 minutes"
        raise DeskError(f"{message}; or --roster or {VARIABLE} names one that is there", 3)
    return known(Program(built))


def is_built(path: str) -> bool:
    """Whether the program is there, and was built of the sources as they are."""
    try:
        with open(f"{path}.built", encoding="utf-8") as file:
            of = [file.readline(), file.readline()]
        ran = subprocess.run([f"{TOP}/tools/sources", "roster"], stdin=subprocess.DEVNULL, stdout=subprocess.PIPE, check=False)
    except OSError:
        return False
    return os.access(path, os.X_OK) and ran.stdout.decode().splitlines() == [line.rstrip("\n") for line in of]


def known(program: Program) -> Program:
    """The program, if it says that it is roster."""
    answer = program.call(["--version"], b"")
    if answer.status or not answer.output.startswith(b"roster "):
        said = shown(answer.output.split(b"\n")[0][:40]) or answer.last()
        message = f"{shown(program.path)} isn't the program roster: to '--version' it answers '{said}'"
        raise DeskError(f"{message}; --roster or {VARIABLE} names the program", 3)
    return program


def taken(program: Program, texts: Texts) -> Plan:
    """The plan of texts of which the program refuses nothing but breaches of H2 to H4 and of absences."""
    program.ask(["show"], texts)
    return plan_in(texts)


def plan_in(texts: Texts) -> Plan:
    """The plan of texts that the program takes."""
    words = Words(texts)
    try:
        return plan_of(words, read_bundle(words))
    except (Fault, KeyError) as why:
        raise DeskError(
            f"roster takes these texts and the desk can't read them ({why}); this is a fault of the desk", 3
        ) from None


def costs_by(program: Program, texts: Texts) -> dict[str, int]:
    """The penalties of the rules, and their total, as the program prints them."""
    output = program.ask(["cost"], texts).output.decode()
    return {name: int(number) for name, number in (line.split() for line in output.splitlines())}


def warn(line: str) -> None:
    print(f"desk: {line}", file=sys.stderr, flush=True)

"""Servers of months that were laid out after the ward that is served: each is a process of its own, which ends with this one."""
import contextlib
import os
import re
import signal
import subprocess
import sys
import threading

from desk_lib.program import LIBC, SET_DEATH_SIGNAL, TOP
from desk_lib.serve.asked import Json, Refused, none_such, text_in
from desk_lib.texts import shown

LINK = re.compile(rb"http://127\.0\.0\.1:\d+/\?key=\S+")
# What a server says at its end of a roster that it has kept.
KEPT = b" is kept, "
# For how many seconds a server may take to end.
PATIENCE = 30.0


class Others:
    """The wards that this server has laid out, and the servers of those that were opened."""

    def __init__(self, program: str):
        self.program, self.lock = program, threading.Lock()
        self.paths: dict[str, str] = {}
        self.links: dict[str, str] = {}
        self.servers: dict[str, subprocess.Popen[bytes]] = {}

    def add(self, name: str, path: str) -> None:
        """Notes a ward that may be opened: its name, and its path."""
        self.paths[name] = path

    def open(self, given: Json) -> Json:
        """Serves a ward that was laid out, and answers the link to it."""
        name = text_in(given, "file", 200)
        if name not in self.paths:
            raise none_such(f"This screen has laid out no ward {shown(name)}.")
        with self.lock:
            if name not in self.servers or self.servers[name].poll() is not None:
                self.links[name] = self.begun(name)
            return {"link": self.links[name]}

    def begun(self, name: str) -> str:
        """Begins a server, and returns its link."""
        words = [
            sys.executable,
            f"{TOP}/desk_lib",
            "serve",
            self.paths[name],
            "--no-browser",
            "--roster",
            os.path.abspath(self.program),
        ]
        server = subprocess.Popen(words, stdin=subprocess.DEVNULL, stdout=subprocess.PIPE, preexec_fn=ends_with_this)
        self.servers[name] = server
        assert server.stdout
        match = LINK.search(server.stdout.readline())
        if match is None:
            raise Refused(503, "program", f"{shown(name)} can't be opened; why stands in the terminal.")
        return match[0].decode()

    def close(self) -> list[str]:
        """Ends all of them; each keeps the best of its runs. Returns what they say of that."""
        said = []
        for server in self.servers.values():
            if server.poll() is None:
                server.terminate()
        for server in self.servers.values():
            with contextlib.suppress(subprocess.TimeoutExpired):
                output, _ = server.communicate(timeout=PATIENCE)
                said += [shown(line) for line in output.splitlines() if KEPT in line]
        return said


def ends_with_this() -> None:
    """In the new process: sees to it that it ends with the one that began it."""
    LIBC.prctl(SET_DEATH_SIGNAL, signal.SIGTERM)

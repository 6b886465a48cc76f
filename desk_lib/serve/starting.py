"""The command `serve`: the Python that can run it, the server, and how it ends.

The desk is run by a Python that looks for no packages (-S). So `serve` looks for one that has Flask and waitress, and begins again with it.
"""
import importlib
import logging
import os
import shutil
import subprocess
import sys
import threading
import typing
import webbrowser

from desk_lib import program, signals
from desk_lib.given import Given, write
from desk_lib.program import TOP, Program
from desk_lib.texts import DeskError, shown
from desk_lib.ward.options import ServeOptions
from desk_lib.ward.rosters import ward_of

if typing.TYPE_CHECKING:
    from desk_lib.serve.routes import Served

# The packages, with what is used of each.
PACKAGES = {"flask": "Flask", "waitress": "create_server"}
# Says that a Python was chosen already, so that none is looked for again.
CHOSEN = "DESK_SERVE_PYTHON"
LACKING = "serve: the screen needs Flask and waitress: apt-get install python3-flask python3-waitress"
# How the server works: how many requests at once, how many connections, how long an idle one stays, and how long the heads of a request may
# be, in bytes.
THREADS, CONNECTIONS, IDLE, HEADS = 40, 200, 30, 32_768
# For how many seconds the other threads may still say goodbye; and how often the file is looked at.
GOODBYE, LOOK = 0.3, 1.0


def run_serve(options: ServeOptions, given: Given, roster: Program) -> int:
    """Shows a ward in a browser, until Ctrl-C."""
    try:
        waitress: typing.Any = importlib.import_module("waitress")
        importlib.import_module("flask")
    except ImportError:
        begin_again()
    from desk_lib.serve.guard import Guard
    from desk_lib.serve.routes import MOST_BYTES, Served, made_app
    from desk_lib.serve.screen import Screen

    screen = Screen(options, ward_of(given).name, roster, options.read_only)
    screen.snapshot()
    held = Late()
    how: dict[str, typing.Any] = {
        "threads": THREADS,
        "connection_limit": CONNECTIONS,
        "channel_timeout": IDLE,
        "max_request_header_size": HEADS,
    }
    how |= {
        "max_request_body_size": MOST_BYTES,
        "ident": "desk",
        "asyncore_use_poll": True,
        "clear_untrusted_proxy_headers": True,
    }
    logging.getLogger("waitress").setLevel(logging.CRITICAL)
    try:
        server = waitress.create_server(held, host="127.0.0.1", port=options.port, **how)
    except (OSError, OverflowError) as why:
        reason = getattr(why, "strerror", None) or str(why)
        raise DeskError(f"serve: port {options.port} can't be used: {reason}; give another --port, or none", 3) from None
    guard = Guard(server.effective_port, options.read_only)
    served = Served(screen, guard)
    held.app = made_app(served)
    served.runs.begin()
    for work in (server.run, lambda: watch(served)):
        threading.Thread(target=work, daemon=True).start()
    write([f"{shown(screen.name)}: open {guard.link()}", "Ctrl-C ends it"])
    if not options.no_browser:
        threading.Thread(target=webbrowser.open, args=(guard.opening_link(),), daemon=True).start()
    return until_ended(served)


class Late:
    """An application that is made once the port is known."""

    app: typing.Any = None

    def __call__(self, environ: typing.Any, start: typing.Any) -> typing.Any:
        return self.app(environ, start)


def watch(served: "Served") -> None:
    """Looks now and then whether a command has changed the ward, and says so to the pages."""
    pause = threading.Event()
    while not pause.wait(LOOK):
        try:
            served.screen.ward()
        except DeskError:
            # (each request says so until the ward can be read again)
            pass


def until_ended(served: "Served") -> int:
    """Waits for the signal that ends the server; then stops the runs, and keeps their best."""
    try:
        threading.Event().wait()
    except signals.Interrupted as end:
        lines = ended(served)
        write([*lines, "the screen is closed"])
        return 0 if end.status == 128 + 2 else end.status
    return 0


def ended(served: "Served") -> list[str]:
    """Stops the runs, and says goodbye to the pages."""
    try:
        lines = served.runs.close()
    except DeskError as why:
        program.warn(str(why))
        lines = []
    lines += served.publishing.others.close()
    served.screen.events.send("bye", {}, is_last=True)
    threading.Event().wait(GOODBYE)
    return lines


# ---- the Python that can run it


def begin_again() -> typing.NoReturn:
    """Begins the desk again, with the first Python that has the packages."""
    found = None if os.environ.get(CHOSEN) else python_with_packages()
    if found is None:
        raise DeskError(LACKING, 3)
    words = [found, os.path.join(TOP, "desk_lib"), *sys.argv[1:]]
    os.execve(found, words, {**os.environ, CHOSEN: found})


def python_with_packages() -> str | None:
    """The first Python on the path that has the packages; that of the system is tried, too."""
    on_path = [shutil.which("python3", path=folder) for folder in os.environ.get("PATH", "").split(os.pathsep)]
    tried = [path for path in [sys.executable, *on_path, "/usr/bin/python3"] if path]
    return next((path for path in dict.fromkeys(tried) if has_packages(path)), None)


def has_packages(python: str) -> bool:
    """Whether a Python is new enough, and has the packages."""
    imports = "; ".join(f"from {package} import {name}" for package, name in PACKAGES.items())
    test = f"import sys; {imports}; sys.exit(sys.version_info < (3, 10))"
    try:
        ran = subprocess.run(
            [python, "-c", test], stdin=subprocess.DEVNULL, stdout=subprocess.DEVNULL, stderr=subprocess.DEVNULL, check=False
        )
    except OSError:
        return False
    return ran.returncode == 0

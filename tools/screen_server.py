"""A ward that is served, and requests to it: what tools/try-serve and tools/load-screen are made of."""
import contextlib
import http.client
import json
import os
import random
import re
import subprocess

import reckoning
from desk_lib.options import Common
from desk_lib.program import Program
from desk_lib.serve.guard import CHANGING, Guard
from desk_lib.serve.routes import Served, made_app
from desk_lib.serve.screen import Screen
from desk_lib.ward.options import ServeOptions

TOP = os.path.dirname(os.path.dirname(os.path.realpath(__file__)))
TEXTS = f"{TOP}/examples/ward-files"
TEN = ["--sce", "Sc-ward12.txt", "--his", "H0-ward12-0.txt", "--weeks", *(f"WD-ward12-{week}.txt" for week in range(4))]
TEN += ["--sols", *(f"Sol-ward12-{week}.txt" for week in range(4))]
# Wednesday, 11 November 2026, 07:00: the tenth day of the ward.
CLOCK = {"LOGNAME": "planner", "SOURCE_DATE_EPOCH": "1794380400", "TZ": "UTC"}
TODAY, PORT = 9, 40_000
# For how many seconds something may take that others of the machine may slow down.
PATIENCE = 120


class Failed(Exception):
    """Something that isn't as it has to be, so that nothing after it can be tried."""


class Checks:
    """What passed and what failed."""

    def __init__(self):
        self.part, self.passed, self.failed = "", 0, 0

    def check(self, what, holds, seen=""):
        self.passed += bool(holds)
        self.failed += not holds
        if not holds:
            print(f"FAILED {self.part}: {what}{f': {seen!r}'[:400] if seen != '' else ''}", flush=True)
        return holds

    def same(self, what, seen, due):
        return self.check(what, seen == due, f"{seen!r}, not {due!r}")


class Page:
    """A tab of a browser: it has the cookie, and the token that a page brings."""

    def __init__(self, served, app, origin=None):
        self.served, self.guard, self.client = served, served.guard, app.test_client(use_cookies=False)
        self.cookie = f"{self.guard.cookie_name}={self.guard.cookie}"
        self.version = 1

    def ask(self, method, path, body=None, **headers):
        """What the server answers to a request, whose usual headers are there unless others are named; None leaves one out."""
        usual = {"Host": self.guard.host, "Cookie": self.cookie}
        if method in CHANGING:
            usual |= {"Origin": self.guard.origin, "X-CSRF-Token": self.guard.token}
        named = {**usual, **{name.replace("_", "-"): value for name, value in headers.items()}}
        sent = (
            {"data": body}
            if isinstance(body, (bytes, dict)) and "Content-Type" in named
            else {"json": body}
            if body is not None
            else {}
        )
        given = {name: value for name, value in named.items() if value is not None}
        return self.client.open(path, method=method, headers=given, **sent)

    def get(self, path, status=200):
        return self.json(self.ask("GET", path), path, status)

    def post(self, path, status=200, method="POST", **body):
        """What a change answers. It is made on the version that this tab shows, unless another one is named."""
        answer = self.json(self.ask(method, path, {"version": self.version, **body}), f"{path} {body}", status)
        if status == 200 and "version" in answer and isinstance(answer["version"], dict):
            self.version = answer["version"]["number"]
        return answer

    def json(self, response, what, status):
        if response.status_code != status:
            raise Failed(f"{what}: status {response.status_code}, not {status}: {response.get_data(as_text=True)[:300]}")
        return response.get_json()

    def rows(self, answer=None):
        """The roster that the server shows, or that of an answer."""
        answer = answer or self.get("/api/month?weeks=0")
        return [[choice and tuple(choice) for choice in row["row"]] for row in answer["rows"]]


class Ward:
    """A ward in a folder of its own, with the texts of the example or with others."""

    def __init__(self, program, folder, bundle=None):
        self.program, self.folder, self.name = program, folder, f"{folder}/ward12.ward"
        self.environment = {**os.environ, **CLOCK, "DESK_ROSTER": program, "PYTHONDONTWRITEBYTECODE": "1"}
        if bundle is None:
            texts = [open(f"{TEXTS}/{name}", "rb").read() for name in TEN if name.endswith(".txt")]
            bundle = b"\n".join(texts)
        self.bundle, self.all_served = bundle, []
        with open(f"{folder}/bundle.txt", "wb") as file:
            file.write(bundle)
        self.desk("new", self.name, "--start", "2026-11-02", "bundle.txt", "--time", "Night=22:00-06:00")

    def desk(self, *words):
        """What a command of the desk writes."""
        how = {"cwd": self.folder, "env": self.environment, "stdin": subprocess.DEVNULL, "capture_output": True}
        ran = subprocess.run([f"{TOP}/desk", *words], **how, check=False)
        if ran.returncode:
            raise Failed(f"desk {' '.join(words)}: {ran.stderr.decode(errors='replace')}")
        return ran.stdout.decode()

    def case(self):
        """The case and the roster, as reckoned from the texts."""
        return reckoning.read(self.bundle.decode())

    def served(self, is_read_only=False):
        """A server of the ward, which listens nowhere, and a tab of it."""
        common = Common([self.name], None, None, None, None, None, None, self.program)
        options = ServeOptions(common, port=0, no_browser=True, read_only=is_read_only)
        served = Served(Screen(options, self.name, Program(self.program), is_read_only), Guard(PORT, is_read_only))
        served.runs.begin()
        self.all_served.append(served)
        return Page(served, made_app(served))

    def close(self):
        """Ends the runs that go on."""
        for served in self.all_served:
            served.runs.close()


# ---- the command as a process, and requests to it


@contextlib.contextmanager
def serving(ward, *words):
    """The command as a process, and the link that it prints."""
    words = [f"{TOP}/desk", "serve", ward.name, "--no-browser", *words]
    with subprocess.Popen(
        words, env=ward.environment, stdin=subprocess.DEVNULL, stdout=subprocess.PIPE, stderr=subprocess.STDOUT
    ) as server:
        try:
            line = server.stdout.readline().decode()
            if not re.search(r"http://127\.0\.0\.1:\d+/\?key=\S+", line):
                raise Failed(f"serve: {line}{server.stdout.read().decode()}")
            yield server, re.search(r"http://\S+", line)[0]
        finally:
            server.kill()


def port_of(link):
    return int(re.search(r":(\d+)/", link)[1])


def opened(link):
    """The cookie that a link gives."""
    connection = http.client.HTTPConnection("127.0.0.1", port_of(link), timeout=PATIENCE)
    connection.request("GET", f"/?key={link.partition('key=')[2]}")
    return connection.getresponse().getheader("Set-Cookie", "").partition(";")[0]


def asked_of(port, method, path, cookie, body=None, token=""):
    """The status and the body of an answer."""
    connection = http.client.HTTPConnection("127.0.0.1", port, timeout=PATIENCE)
    headers = {"Cookie": cookie, "Origin": f"http://127.0.0.1:{port}", "X-CSRF-Token": token, "Content-Type": "application/json"}
    connection.request(method, path, None if body is None else json.dumps(body), headers)
    response = connection.getresponse()
    return response.status, response.read()


# ---- wards of any size


def sized(nurses, weeks):
    """A ward of this size, whose nurses have rows that break no rule."""
    days = "Mon Tue Wed Thu Fri Sat Sun".split()
    skills = ["Head", "Nurse"]
    lines = [
        f"SCENARIO = big\n\nWEEKS = {weeks}\n\nSKILLS = 2\n{skills[0]}\n{skills[1]}\n\nSHIFT_TYPES = 3\nEarly (2,5)\nLate (2,5)\nNight (4,5)"
    ]
    lines.append("\nFORBIDDEN_SHIFT_TYPES_SUCCESSIONS\nEarly 0\nLate 1 Early\nNight 2 Early Late\n\nCONTRACTS = 1")
    lines.append(f"Full ({4 * weeks},{5 * weeks}) (3,5) (2,3) {weeks // 2 or 1} 1\n\nNURSES = {nurses}")
    lines += [f"nurse{number} Full 2 Head Nurse" for number in range(nurses)]
    lines.append("\nHISTORY\n0 big\n\nNURSE_HISTORY")
    lines += [f"nurse{number} 0 0 None 0 0 1" for number in range(nurses)]
    chance = random.Random(1)
    for _ in range(weeks):
        lines.append("\nWEEK_DATA\nbig\n\nREQUIREMENTS")
        lines += [
            f"{shift} {skill} " + " ".join([f"({nurses // 20},{nurses // 10})"] * 7)
            for shift in ("Early", "Late", "Night")
            for skill in skills
        ]
        asked = {(chance.randrange(nurses), day) for day in days for _ in range(nurses // 20)}
        lines.append(f"\nSHIFT_OFF_REQUESTS = {len(asked)}")
        lines += [f"nurse{nurse} Any {day}" for nurse, day in sorted(asked)]
    for week in range(weeks):
        worked = [(nurse, day) for nurse in range(nurses) for day in range(7) if (7 * week + day + nurse) % 7 < 5]
        lines.append(f"\nSOLUTION\n{week} big\n\nASSIGNMENTS = {len(worked)}")
        lines += [
            f"nurse{nurse} {days[day]} {('Early', 'Late', 'Night')[nurse % 3]} {skills[nurse // 3 % 2]}" for nurse, day in worked
        ]
    return "\n".join(lines) + "\n"

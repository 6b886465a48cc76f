"""The paths of the server. Each is looked at by the guard, and passed on to the module that does it."""
import collections.abc
import html
import json
import sys
import traceback
import typing
import urllib.parse

import flask
import werkzeug.exceptions

from desk_lib.serve import guard as guards
from desk_lib.serve.asked import Json, Refused, none_such, of_desk
from desk_lib.serve.asks import Asks
from desk_lib.serve.changes import Changes
from desk_lib.serve.events import Channel, Listeners
from desk_lib.serve.guard import Guard
from desk_lib.serve.ill import Ill
from desk_lib.serve.publishing import Publishing
from desk_lib.serve.runs import Runs
from desk_lib.serve.screen import Screen
from desk_lib.texts import DeskError, shown

VIEWS = ("month", "ill", "asks", "better", "publish")
# How much a request may bring, in bytes, and a request for a change without a file; and how many streams may be open.
MOST_BYTES, MOST_JSON, MOST_STREAMS = 16 * 2**20, 2**20, 24
# What a browser gets that has a link: the cookie, and this, which leads on.
WELCOME = '<!doctype html><html lang="en"><head><meta charset="utf-8"><title>{title}</title>'
WELCOME += (
    '<meta http-equiv="refresh" content="0; url=/month"></head><body><p><a href="/month">Go on to {title}</a></p></body></html>'
)
# What a browser gets in the place of a page that is refused.
REFUSED = '<!doctype html><html lang="en"><head><meta charset="utf-8"><title>Not opened</title></head>'
REFUSED += "<body><h1>Not opened</h1><p>{words}</p></body></html>"

Answer = typing.Callable[..., typing.Any]


class Served:
    """What a server has: the ward, all that may be asked of it, and its guard."""

    def __init__(self, screen: Screen, guard: Guard):
        self.screen, self.guard = screen, guard
        self.changes = Changes(screen)
        self.asks = Asks(screen, self.changes)
        self.ill = Ill(screen, self.changes, self.asks)
        self.runs = Runs(screen, self.changes)
        self.publishing = Publishing(screen)
        self.listeners = Listeners(MOST_STREAMS)


def made_app(served: Served) -> typing.Any:
    """The application of a server."""
    app = flask.Flask("desk_lib.serve", root_path=__file__.rpartition("/")[0])
    app.config["MAX_CONTENT_LENGTH"] = MOST_BYTES
    app.before_request(lambda: gate(served))
    app.after_request(with_headers)
    app.register_error_handler(Exception, lambda why: answered_error(served, why))
    add_pages(app, served)
    add_looks(app, served)
    add_changes(app, served)
    add_runs(app, served)
    add_files(app, served)
    return app


# ---- the guard, headers and errors


def gate(served: Served) -> typing.Any:
    """Looks at a request before anything else does. A link with a good key gives the cookie."""
    request, guard = flask.request, served.guard
    asked = guards.Asked(
        request.method,
        request.headers.get("Host", ""),
        request.headers.get("Origin", ""),
        request.headers.get("Sec-Fetch-Site", ""),
        request.cookies.get(guard.cookie_name, ""),
        request.headers.get("X-CSRF-Token", ""),
    )
    if request.path == "/" and request.method == "GET" and "key" in request.args:
        guard.check_host(asked._replace(site=""))
        if guard.admits(request.args["key"]):
            return welcome(served)
        raise Refused(
            403,
            "key",
            "This link is of another server, or of one that has ended. Start the desk again, and open the link that it prints.",
        )
    if "//" in request.path:
        raise none_such("There is no such page.")
    # (a link on another page may lead to a page of this server, as long as the browser sends no cookie with it)
    is_page = request.method == "GET" and request.headers.get("Sec-Fetch-Mode") == "navigate"
    guard.check_host(asked._replace(site="") if is_page else asked)
    guard.check_key(asked)
    guard.check_change(asked)
    if request.method in guards.CHANGING:
        guard.check_writable()
    return None


def welcome(served: Served) -> typing.Any:
    """The page that leads on from a link, with the cookie."""
    response = flask.make_response(WELCOME.format(title=escaped(served.publishing.title())))
    response.set_cookie(served.guard.cookie_name, served.guard.cookie, httponly=True, samesite="Strict", path="/")
    return response


def escaped(text: str) -> str:
    """A name as it can stand anywhere in a page."""
    return html.escape(shown(text))


def with_headers(response: typing.Any) -> typing.Any:
    """An answer with what it forbids the browser."""
    for name, value in guards.HEADERS.items():
        response.headers.setdefault(name, value)
    if flask.request.path.startswith("/static/"):
        response.headers["Cache-Control"] = "no-cache"
    else:
        response.headers["Cache-Control"] = "no-store"
    return response


def answered_error(served: Served, why: Exception) -> typing.Any:
    """The answer for what went wrong: a page in words for a page, and else JSON."""
    if isinstance(why, DeskError):
        why = of_desk(why)
    if isinstance(why, werkzeug.exceptions.HTTPException):
        why = of_http(why)
    if not isinstance(why, Refused):
        traceback.print_exception(type(why), why, why.__traceback__, file=sys.stderr)
        why = Refused(
            500, "fault", "This is a fault of the desk; what it says of it stands in the terminal. Nothing was changed."
        )
    why.words = served.screen.plain(why.words)
    is_page = flask.request.method == "GET" and not flask.request.path.startswith(("/api/", "/static/"))
    if is_page:
        return flask.make_response(REFUSED.format(words=escaped(why.words)), why.status)
    return flask.make_response(flask.jsonify(why.json()), why.status)


def of_http(why: typing.Any) -> Refused:
    """What Flask refuses, in our words."""
    known = {
        404: ("none", "There is no such page."),
        405: ("method", "This can't be asked for in that way."),
        413: ("size", "This is more than 16 MiB, which is the most that the desk takes."),
        415: ("type", "This request isn't of the kind that the desk takes."),
    }
    status = why.code or 500
    kind, words = known.get(status, ("request", "This request can't be read."))
    return Refused(status, kind, words)


# ---- what requests have


def body() -> Json:
    """The object that a change brings."""
    request = flask.request
    if request.mimetype != "application/json":
        raise Refused(415, "type", "A change is sent as JSON.")
    if (request.content_length or 0) > MOST_JSON:
        raise Refused(413, "size", "This is more than a change can be.")
    try:
        found = json.loads(request.get_data())
    except (ValueError, RecursionError):
        raise Refused(400, "request", "This request can't be read.") from None
    if not isinstance(found, dict):
        raise Refused(400, "request", "This request can't be read.")
    return found


def number(name: str) -> int | None:
    """The number of a word of the query, if it is there."""
    word = flask.request.args.get(name)
    if word is None or word == "":
        return None
    if not (word.isascii() and word.isdigit() and len(word) < 10):
        raise none_such(f"There is no {name} {shown(word)[:40]}.")
    return int(word)


def needed(name: str) -> int:
    found = number(name)
    if found is None:
        raise Refused(422, "refused", f"{name}: a number is due", field=name)
    return found


def as_json(data: bytes) -> typing.Any:
    return flask.Response(data, mimetype="application/json")


# ---- the paths


def add_pages(app: typing.Any, served: Served) -> None:
    """The views, which are one page, and what they begin with."""

    def view(name: str) -> Answer:
        def show() -> typing.Any:
            about = {"title": shown(served.publishing.title()), "view": name, "token": served.guard.token}
            return flask.render_template(
                "shell.html", **about, read_only=served.guard.is_read_only, ward=shown(served.screen.name)
            )

        return show

    for name in VIEWS:
        app.add_url_rule(f"/{name}", f"view_{name}", view(name))
    app.add_url_rule("/", "start", lambda: flask.redirect("/month", 303))
    app.add_url_rule("/favicon.ico", "favicon", lambda: flask.redirect("/static/icon.svg", 303))


def add_looks(app: typing.Any, served: Served) -> None:
    """What is looked at, and changes nothing."""
    screen, asks, ill, publishing = served.screen, served.asks, served.ill, served.publishing

    def month() -> typing.Any:
        rows = flask.request.args.get("rows")
        nurses = (
            tuple(int(word) for word in rows.split(",") if word.isascii() and word.isdigit() and len(word) < 5) if rows else None
        )
        every = range(len(screen.snapshot(number("v")).case.nurses))
        chosen = None if nurses is None else tuple(nurse for nurse in nurses if nurse in every)
        return as_json(screen.month_bytes(number("v"), screen.window(flask.request.args), chosen))

    def who() -> Json:
        return ill.who({name: needed(name) for name in ("day", "shift", "skill")}, number("v"))

    looks: dict[str, Answer] = {
        "/api/month": month,
        "/api/asks": lambda: as_json(asks.view(number("v"))),
        "/api/open": lambda: ill.opens(number("v")),
        "/api/who": who,
        "/api/candidates": lambda: ill.candidates(number("v")),
        "/api/calls": ill.calls,
        "/api/why": lambda: publishing.why(number("v"), needed("nurse"), needed("day")),
        "/api/publish": publishing.view,
        "/api/versions": publishing.versions,
        "/api/diff/<int:first>/<int:second>": publishing.diff,
    }
    for path, answer in looks.items():
        app.add_url_rule(path, f"get {path}", answer)


def add_changes(app: typing.Any, served: Served) -> None:
    """What changes the ward, by one version each; and what would."""
    changes, asks, ill, publishing = served.changes, served.asks, served.ill, served.publishing
    posts: dict[str, collections.abc.Callable[[Json], Json]] = {
        "/api/try": changes.tried,
        "/api/change": changes.change,
        "/api/undo": changes.undo,
        "/api/redo": changes.redo,
        "/api/back": changes.back,
        "/api/ill": ill.add,
        "/api/take": ill.take,
        "/api/asks": asks.add,
        "/api/publish": changes.publish,
        "/api/next": publishing.next_month,
        "/api/open": publishing.others.open,
        "/api/repair": lambda given: served.runs.start({**given, "kind": "repair"}),
        "/api/no": lambda given: with_repair(served, ill.says_no(given)),
    }

    def posted(does: collections.abc.Callable[[Json], Json]) -> Answer:
        return lambda: does(body())

    for path, does in posts.items():
        app.add_url_rule(path, f"post {path}", posted(does), methods=["POST"])
    app.add_url_rule("/api/asks/<int:number>", "withdraw", lambda number: changes.withdraw(body(), number), methods=["DELETE"])
    app.add_url_rule("/api/roster", "upload", lambda: upload(served), methods=["POST"])


def with_repair(served: Served, answer: Json) -> Json:
    """What a change answers, with a repair that is begun after it."""
    return {**answer, "run": served.runs.start({"version": answer["version"]["number"], "kind": "repair"})}


def upload(served: Served) -> Json:
    """A roster of a file."""
    given = flask.request.files.get("file")
    if given is None:
        raise Refused(422, "refused", "Choose a file first.", field="file")
    name = (given.filename or "the file").replace("\\", "/").rpartition("/")[2][:200]
    asked = {"version": needed("version"), "force": bool(number("force"))}
    return served.changes.upload(asked, name, given.read())


def add_runs(app: typing.Any, served: Served) -> None:
    """Runs, and what happens as it happens."""
    runs = served.runs

    def events_of(found: Channel, is_from_now: bool) -> typing.Any:
        word = flask.request.headers.get("Last-Event-ID", "")
        first = int(word) if word.isascii() and word.isdigit() and len(word) < 10 else found.last() if is_from_now else 0
        if not served.listeners.enter():
            raise Refused(503, "streams", "Too many tabs listen at once. Close some.")
        response = flask.Response(found.stream(first), mimetype="text/event-stream")
        response.call_on_close(served.listeners.leave)
        return response

    rules: list[tuple[str, str, Answer]] = [
        ("/api/runs", "GET", runs.json),
        ("/api/runs", "POST", lambda: runs.start(body())),
        ("/api/runs/<int:number>", "GET", lambda number: runs.json_of(runs.run(number))),
        ("/api/runs/<int:number>/events", "GET", lambda number: events_of(runs.run(number).channel, False)),
        ("/api/runs/<int:number>/stop", "POST", lambda number: runs.stop(number, body())),
        ("/api/runs/<int:number>/keep", "POST", lambda number: runs.keep(number, body())),
        ("/api/runs/<int:number>/drop", "POST", lambda number: runs.dropped(number, body())),
        ("/api/events", "GET", lambda: events_of(served.screen.events, True)),
    ]
    for path, method, does in rules:
        app.add_url_rule(path, f"{method} {path}", does, methods=[method])


def add_files(app: typing.Any, served: Served) -> None:
    """Files to save or to print."""

    def export(kind: str) -> typing.Any:
        found = served.publishing.export(kind, number("v"), number("nurse"))
        response = flask.Response(found.data, content_type=found.kind)
        is_shown = flask.request.args.get("inline") == "1" and found.kind.startswith("text/html")
        response.headers["Content-Disposition"] = "inline" if is_shown else attached(found.name)
        response.headers["Content-Security-Policy"] = guards.OF_FILE
        return response

    app.add_url_rule("/export/<kind>", "export", export)


def attached(name: str) -> str:
    """The header for a file of this name."""
    plain = "".join(letter if letter.isascii() and (letter.isalnum() or letter in "-_.") else "_" for letter in name)
    return f"attachment; filename=\"{plain}\"; filename*=UTF-8''{urllib.parse.quote(name, safe='')}"

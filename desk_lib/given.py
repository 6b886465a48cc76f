"""What a command works on, as its options name it: the files, the plans and their costs; and where it writes."""
import collections.abc
import dataclasses
import datetime
import errno
import os
import sys
import typing

from desk_lib import breaches, check, outputs, program, replacing, table_in
from desk_lib.asked_texts import Asked
from desk_lib.asks import Asks, Held, start_in
from desk_lib.costs import Costing
from desk_lib.days import DATE, Calendar, day_of, is_day
from desk_lib.grammar import WORD
from desk_lib.model import Plan, with_no_solutions
from desk_lib.options import CheckOptions, ImproveOptions, Options
from desk_lib.program import Program
from desk_lib.texts import DeskError, Text, Texts, plural, read_file, shown
from desk_lib.ward import naming
from desk_lib.ward import texts as ward_texts

if typing.TYPE_CHECKING:
    from desk_lib.ward.store import Ward

# What solutions are among the files that are read.
SOLUTIONS = "the file of --sols"


class WriteFailed(Exception):
    """Standard output could not be written."""

    def __init__(self, cause: OSError):
        super().__init__(cause)
        self.cause = cause


def write(lines: collections.abc.Iterable[str]) -> None:
    """Writes lines to standard output, in UTF-8 whatever the terminal says."""
    to_output(line.encode() + b"\n" for line in lines)


def to_output(pieces: collections.abc.Iterable[bytes]) -> None:
    """Writes bytes to standard output."""
    try:
        if sys.stdout is None:
            raise OSError(errno.EBADF, os.strerror(errno.EBADF))
        for piece in pieces:
            sys.stdout.buffer.write(piece)
        sys.stdout.buffer.flush()
    except OSError as why:
        raise WriteFailed(why) from why


def write_text(name: str | None, text: str) -> None:
    """Writes a text into the file of this name, or else to standard output."""
    write_bytes(name, text.encode())


def write_bytes(name: str | None, data: bytes) -> None:
    """As `write_text`, of bytes."""
    if name and name != "-":
        replacing.replace_text(name, data)
    else:
        to_output([data])


# ---- what it works on


@dataclasses.dataclass(frozen=True)
class Given:
    """What a command works on: its options, the text of --asks, and what both say of days: the Monday of week 0, the day that --from
    names, if it names one, and the first week that may change."""

    options: Options
    text: Text
    start: datetime.date | None
    today: bytes
    first_week: int
    # (the ward that stands in the place of the files, if one does)
    ward: "Ward | None" = None

    def with_files(self, files: list[str]) -> "Given":
        """The same with other files: some of the words were none."""
        common = dataclasses.replace(self.options.common, files=files)
        return settled(dataclasses.replace(self.options, common=common))

    @property
    def held(self) -> Held:
        """What no ask may change."""
        published = self.ward.state.publication if self.ward and not self.options.CHANGES_PUBLISHED else None
        return Held(self.first_week, published.days if published else 0)


def files_read(options: Options) -> list[outputs.Named]:
    """The files that a command reads, each with what it is there."""
    found: list[outputs.Named] = [("an input file", name) for name in options.common.files]
    found += [(f"the file of --{kind}", name) for kind, names in options.common.by_kind.items() for name in names]
    found = found or [("standard input", 0)]
    found += [("the file of --with", name) for name in options.common.other or ()]
    found += [("the file of --asks", options.common.asks)] if options.common.asks else []
    found += [("the file of --log", options.read_log)] if options.read_log else []
    named = options.common.roster or os.environ.get(program.VARIABLE)
    return [*found, ("the program", named)] if named else found


def check_written(options: Options) -> None:
    """Refuses to write what is read, before anything is done. The one file of all solutions may become a better roster."""
    written, read = options.written(), files_read(options)
    if isinstance(options, ImproveOptions):
        for option in [option for option, name, _ in written if name == "-"]:
            raise DeskError(f"{option} -: this is no file, and can't be written again and again; give the name of one", 2)
        solutions = [named for named in read if named[0] == SOLUTIONS]
        if options.out and len(solutions) == 1 and outputs.identity(solutions[0][1]) == outputs.identity(options.out):
            read.remove(solutions[0])
    outputs.refuse_inputs([(option, name) for option, name, _ in written], read)
    for option, name, kind in written:
        if name != "-" and not options.common.force:
            outputs.refuse_unrelated(option, name, kind)


def ward_in(options: Options) -> "Ward | None":
    """The ward that the command line names in the place of the files, if it does."""
    wards = [name for name in options.common.files if naming.is_ward(name)]
    for kind, names in (*options.common.by_kind.items(), ("with", options.common.other or ())):
        for name in filter(naming.is_ward, names):
            instead = "'desk diff' compares two versions of a ward" if kind == "with" else "it stands in the place of all files"
            raise DeskError(f"--{kind} {shown(name)}: this is a ward; {instead}", 2)
    if not wards:
        return None
    # (the words of a swap's days stand before the files)
    files = [name for name in options.common.files if not is_day(os.fsencode(name)) or os.path.lexists(name)]
    others = [name for name in files if name != wards[0]] + [name for names in options.common.by_kind.values() for name in names]
    if others or len(wards) > 1:
        message = f"{shown(wards[0])}: a ward stands in the place of all files, and {shown((others or wards)[0])} is given, too"
        raise DeskError(f"{message}; leave that out", 2)
    if options.common.asks:
        message = f"--asks {shown(options.common.asks)}: a ward has its asks in it; 'desk ask {shown(wards[0])} LINE' adds one"
        raise DeskError(message, 2)
    # (a start of the desk is the quicker without this import)
    from desk_lib.ward.store import read_ward

    return read_ward(wards[0])


def texts_of(given: Given) -> Texts:
    """The texts of the ward, or the files that the command line names, or standard input."""
    if given.ward:
        texts = ward_texts.texts_of(given.ward, given.options.may_lack_solutions)
        texts.ward = given.ward.name
        return texts
    options = given.options
    by_kind = options.common.by_kind
    if not any(by_kind.values()):
        texts = read_texts(options, [(name, "") for name in options.common.files]) if options.common.files else from_input()
        return with_no_solutions(texts) if options.may_lack_solutions else texts
    if options.common.files:
        message = f"{shown(options.common.files[0])}: name all files by --sce, --his, --weeks and --sols, or none"
        second = "; one of the second roster has --with before it" if options.common.other else ""
        raise DeskError(f"{message}{second}", 2)
    lacking = [f"--{kind}" for kind, names in by_kind.items() if not names]
    is_new = lacking == ["--sols"] and options.may_lack_solutions
    if lacking and not is_new:
        message = f"without {' and without '.join(lacking)}: --sce, --his, --weeks and --sols name all files together"
        first = "; roster needs a roster to begin with, for which 'improve --plan' looks" if "--sols" in lacking else ""
        raise DeskError(f"{message}{first}", 2)
    for kind in ("sce", "his"):
        if len(by_kind[kind]) > 1:
            raise DeskError(f"--{kind} names {' and '.join(map(shown, by_kind[kind]))}; give one file", 2)
    texts = read_texts(options, [(name, kind) for kind, names in by_kind.items() for name in names])
    return with_no_solutions(texts) if is_new else texts


def read_texts(options: Options, named: list[tuple[str, str]]) -> Texts:
    """The texts of these files. A table of the desk's own becomes solutions. If something is wrong with it, `check` reports all of
    that."""
    texts = read_files(named)
    table = table_in.table_in(texts)
    if not table or table.wrong and isinstance(options, CheckOptions):
        return Texts(texts)
    try:
        return Texts([*texts[:-1], table_in.right(table).solutions()])
    except DeskError as why:
        raise DeskError(f"{why}; 'desk check' with these files reports all that is wrong") from None


def read_files(named: list[tuple[str, str]]) -> list[Text]:
    """The files of these names, each with the option that names it. If some can't be read, the error names all of them."""
    found, failed = [], []
    for name, kind in named:
        try:
            found.append(read_file(name, kind))
        except DeskError as why:
            failed.append((name, why))
    if failed:
        others = f"; nor can {' and '.join(shown(name) for name, _ in failed[1:])} be read" if failed[1:] else ""
        raise DeskError(f"{failed[0][1]}{others}", 3)
    return found


def from_input() -> Texts:
    try:
        data = b"" if sys.stdin.isatty() else sys.stdin.buffer.read()
    except (OSError, AttributeError) as why:
        raise DeskError("standard input: read failed; name the files", 3) from why
    if not data.strip():
        raise DeskError("no file is named, and standard input is empty; name the files, or a ward", 2)
    return Texts([Text("standard input", data)], is_stream=True)


def settled(options: Options) -> Given:
    """What the options give, once the text of asks is read. A line of it may say the first Monday, and --from may name a week or a
    day of it."""
    ward = ward_in(options)
    text = read_file(options.common.asks) if options.common.asks else Text("--from", b"")
    start, word = start_in(text, options.common.start), os.fsencode(options.common.since)
    if ward:
        text, start = ward_texts.asks_text(ward), ward_texts.start_of(ward, options.common.start)
    if ward and options.CHANGES_PUBLISHED and word == b"0":
        word = ward_texts.today_of(ward)
    Calendar.start = start
    today = b"" if word.isdigit() else word
    if DATE.fullmatch(word) and not start:
        raise DeskError(f"--from {shown(word)}: this is a date; name the Monday of week 0 by --start, or the day as 1:Wed", 2)
    try:
        first_week = max(0, day_of(word, start)) // 7 if today else int(word)
    except DeskError as why:
        raise DeskError(f"--from {shown(word)}: {why}", 2) from None
    return Given(options, text, start, today, first_week, ward)


def asks_of(given: Given, plan: Plan) -> Asks | None:
    """What is asked for, by a text or by --from."""
    is_asked = given.ward or given.options.common.asks or given.today
    return Asks(given.text, plan, given.start, given.today, given.held) if is_asked else None


def reported_asks(given: Given, plan: Plan) -> Asks | None:
    """As `asks_of`; the desk also reports how many days it read of each ask."""
    wanted = asks_of(given, plan)
    for line in wanted.answers if wanted and not given.ward else ():
        program.warn(line)
    return wanted


def both_plans(given: Given, roster: Program) -> list[tuple[Texts, Plan]]:
    """The texts with their plan; and after them, if a second roster is given, those with that roster.

    The last is the one to show. What is wrong with it, apart from what the program reports, goes to standard error."""
    texts = texts_of(given)
    found = [(texts, program.taken(roster, texts))]
    wanted = reported_asks(given, found[0][1])
    if wanted:
        # (what is compared is the roster as it was)
        with_duties = given.options.MAKES_ROSTERS or not (given.ward or given.options.common.other)
        texts = Asked(wanted).added_to(texts, with_duties)
        found = [(texts, dataclasses.replace(program.taken(roster, texts), of_files=found[0][1].roster))]
    if given.options.common.other:
        found.append(with_second(roster, *found[0], given.options.common.other))
    for _, plan in found:
        for wrong in check.out_of_place(plan.words, plan.bundle.solutions):
            program.warn(f"{wrong.place}: {wrong.message}")
    if wanted and given.options.REPORTS_FAILED_ASKS:
        for line in wanted.failed(found[-1][1].roster):
            program.warn(line)
    return found


def with_second(roster: Program, texts: Texts, plan: Plan, names: list[str]) -> tuple[Texts, Plan]:
    """The texts with the solutions of these files, and their plan."""
    second = second_in(names, plan)
    after = texts.before(plan.solutions_offset(), second)
    count, weeks = sum(WORD.findall(text.data).count(b"SOLUTION") for text in second), plan.case.weeks
    try:
        return after, taken_second(roster, "show", after, names)
    except DeskError:
        if count == weeks:
            raise
        message = f"--with {' '.join(map(shown, names))}: {plural(count, 'solution')} for {plural(weeks, 'week')}"
        raise DeskError(f"{message}; give those of all weeks, in one file, or in several with --with before each") from None


def second_in(names: list[str], plan: Plan) -> list[Text]:
    """The texts of a second roster, in solutions or in a table."""
    texts = read_files([(name, "") for name in names])
    try:
        return [table_in.solutions_in(text, plan.case) for text in texts]
    except DeskError as why:
        named = " ".join(map(shown, names))
        raise DeskError(f"--with {named}: {str(why).removeprefix(f'{named}: ')}", why.status) from None


def taken_second(roster: Program, word: str, texts: Texts, names: list[str]) -> Plan:
    """The plan of texts with a second roster, which this command of the program takes. If it doesn't, the error names the files of
    that roster."""
    answer = roster.call([word], texts.joined)
    if answer.status == 1:
        line = answer.last()
        message = f"--with {' '.join(map(shown, names))}: {program.said_of(line, texts)}"
        raise DeskError(f"{message}; 'desk check' with this roster instead of the first reports all that is wrong")
    if answer.status:
        raise program.refusal(word, answer, texts)
    return program.plan_in(texts)


def costings(options: Options, roster: Program, pairs: list[tuple[Texts, Plan]], may_break: bool = False) -> list[Costing]:
    """The costs of plans, compared with the program's. If `may_break`, the first one may break minimums, successions and absences."""
    found = []
    for number, (texts, plan) in enumerate(pairs):
        if number:
            taken_second(roster, "cost", texts, options.common.other or [])
        is_broken = may_break and not number and breaches.all_breaches(plan)
        totals = program.costs_by(roster, breaches.without_rules(texts, plan) if is_broken else texts)
        found.append(Costing(plan))
        found[-1].compare(totals)
    return found

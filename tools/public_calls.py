"""The public calls of the libraries, as their sources declare them."""
import functools
import itertools
import os
import re

TOP = os.path.dirname(os.path.dirname(os.path.realpath(__file__)))
# The crates that a program of one's own calls, and what in these serves the crates of a search alone.
CALLED = "text instance case state best rounds reports bound polish who request input cli"
BETWEEN = """
    StateBox Interval boxes_of widen NurseDays Span is_forbidden LineCosts set_line fill_line Block::numbered Block::of_runs
    Block::last_number Block::with_weekends
    Block::state Ranges::last Ranges::run Ranges::shift_run Ranges::assignments Ranges::weekends Ranges::blocks
    State::last_number State::run State::shift_run State::assignments State::weekends Workspace::offers
    Workspace::search_offers LastSearches::has_search LastSearches::most_gain
    LastSearches::remember RowSpace count_rows follow_cover raise_uncovered price_slots take_row put_row price_of
    has_uncovered_slot offer_days rows_exist Base::of improve_dual_prices refuse
"""
# Comments, strings and characters, whose braces count for nothing.
SILENT = r"""//[^\n]*|"(?:[^"\\]|\\[\s\S])*"|'(?:\\[^'\n]+|[^'\\\n])'"""
OPENS = "([{"
BRACKETS = re.compile(r"[(\[{)\]}]")


def silenced(text: str) -> str:
    """The text with blanks in the place of comments, strings and characters."""
    return re.sub(SILENT, lambda found: re.sub(r"[^\n]", " ", found[0]), text)


def end_of(text: str, at: int) -> int:
    """Where the bracket that opens at this position is closed."""
    depth = 0
    for found in BRACKETS.finditer(text, at):
        depth += 1 if found[0] in OPENS else -1
        if not depth:
            return found.start()
    return len(text)


def owners(text: str) -> list[tuple[int, int, str]]:
    """The blocks of impls and traits: from where, to where, and of which type or trait."""
    found = []
    for block in re.finditer(r"(?m)^\s*(?:pub(?:\([^)]*\))?\s+)?(?:unsafe\s+)?(impl|trait)\b([^{;]*)\{", text):
        head = re.sub(r"\bwhere\b.*", "", block[2], flags=re.S)
        while re.search(r"<[^<>]*>", head):
            head = re.sub(r"<[^<>]*>", " ", head)
        name = re.search(r"\bfor\s+([\w:]+)", head) or re.search(r"([\w:]+)", head)
        if name:
            found.append((block.start(), end_of(text, block.end() - 1), name[1].split("::")[-1]))
    return found


def docstring(text: str, at: int) -> str:
    """What the first lines of documentation above the line of this position say, up to an empty one."""
    said: list[str] = []
    for line in reversed(text[: text.rfind("\n", 0, at) + 1].split("\n")[:-1]):
        if line.strip().startswith("///"):
            said.insert(0, line.strip()[3:].strip())
        elif not line.strip().startswith("#["):
            break
    return " ".join(itertools.takewhile(bool, said))


@functools.lru_cache(maxsize=None)
def calls_of(crate: str) -> dict[str, str]:
    """What the sources say of each function and method that a crate exports, by its name: those of other crates too, which it hands on."""
    folder, methods, free, found, aliases = f"{TOP}/crates/{crate}/src", {}, {}, {}, {}
    if not os.path.isfile(f"{folder}/lib.rt"):
        return found
    for path in sorted(os.listdir(folder)):
        with open(f"{folder}/{path}", encoding="utf-8") as file:
            source = file.read()
        text = silenced(source)
        blocks = owners(text)
        aliases |= {name: (home, called) for name, home, called in re.findall(r"\bpub\s+type\s+(\w+)\s*=\s*(roster_\w+)::(\w+)", text)}
        for function in re.finditer(r"\bpub\s+(?:const\s+|unsafe\s+)*fn\s+(\w+)", text):
            around = [name for start, end, name in blocks if start < function.start() < end]
            own = methods.setdefault(around[-1], {}) if around else free
            own[function[1]] = docstring(source, function.start())
    with open(f"{folder}/lib.rt", encoding="utf-8") as file:
        exported = re.findall(r"\bpub\s+use\s+(\w+)::([^;]*);", silenced(file.read()))
    for source, names in exported:
        below = calls_of(source)
        for name in re.findall(r"\w+", names):
            own = {f"{name}::{method}": said for method, said in methods.get(name, {}).items()}
            own |= {name: free[name]} if name in free else {}
            if name in aliases:
                home, called = aliases[name]
                own |= {call.replace(called, name, 1): said for call, said in calls_of(home).items() if call.startswith(f"{called}::")}
            found |= own or {call: said for call, said in below.items() if call.split("::")[0] == name}
    return found


def for_callers(crate: str) -> dict[str, str]:
    """The same without what serves the crates of a search alone."""
    between = {*BETWEEN.split()}
    return {call: said for call, said in calls_of(crate).items() if not {call, call.split("::")[0]} & between}

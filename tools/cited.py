"""The names that a page may cite: those of the sources, paths, commands with their options, and words of the texts.

`is_known` is the question that tools/check-docs asks. A name alone has to be declared, to be a path or to be a word of the texts that
the programs read and write; in a command line each option has to be one of that program; and in any longer text, such as a line of a
log, each word has to be known.
"""
import fnmatch
import functools
import os
import re

from public_calls import end_of, owners, silenced

TOP = os.path.dirname(os.path.dirname(os.path.realpath(__file__)))
# What a page cites that no file of the repository declares, by the reason why it may.
ALLOWED = {
    "Rust and its standard library": ["&mut", "?", "impl Parse", "match", "collect", "map", "Drop", "Display", "a - b"],
    "the shell": ["cc", "~/.local"],
    "the kit and its proofs": ["rt", "requires", "ensures", "first_of", "record", "Type 0", ".old", ".new"],
    "endings of files": [".rt", ".antt", ".xlsx"],
    "a ward's file, and what is next to it": ["NAME.ward", "NAME.ward-journal", "application_id", "user_version", "WardSeal"],
    "days of an ask": ["2026-11-04", "4 Nov", "2026-11-02 06:30:00"],
    "packages of Debian's": ["python3-openpyxl", "python3-flask", "python3-waitress", "python3-selenium", "chromium", "chromium-driver"],
    "words of HTTP": ["127.0.0.1", "localhost", "HttpOnly", "SameSite=Strict", "Origin", "Origin: null", "Sec-Fetch-Site", "PUT", "TRACE"],
    "what a page may load": ["frame-ancestors", "X-Frame-Options"],
    "Pythons": ["python3", "/usr/bin/python3"],
    "any module, type, function or case": ["proofs/m/f/", "proofs/m/T/f/", "src/m.rt", "GROUP/NAME"],
    "what a build leaves": ["out/"],
    "marks of the desk's grid, and a variable of its cases": ["!", "*", "$TEN"],
    "names that an example makes up": ["maxi", "Bob Tue Early Head"],
    "commands outside the repository": ["git log 3499717..", "apt-get install g++ libboost-graph-dev", "kill -9",
    "apt-get install python3-flask python3-waitress"],
}
# What the kit's command takes, and the options of these.
KIT_WORDS = {"all", "check", "ci", "doc", "fmt", "run", "try"}
KIT_OPTIONS = {"--generated", "--jobs"}
# Options that every command line has.
EVERYWHERE = {"--help", "--version"}
# Folders that aren't looked into.
LEFT_OUT = {".git", "out", "__pycache__"}
WORD = r"[A-Za-z_][\w'-]*"
FILE_NAME = r"[\w-]+\.(?:txt|log|html|csv|ics|ward)"


def read(path: str) -> str:
    """The text of a file of the repository."""
    with open(f"{TOP}/{path}", encoding="utf-8", errors="replace") as file:
        return file.read()


@functools.lru_cache(maxsize=None)
def tracked() -> tuple[str, ...]:
    """The files of the repository, without those that a build or a check leaves."""
    found: list[str] = []
    for folder, folders, names in os.walk(TOP):
        folders[:] = [name for name in folders if name not in LEFT_OUT]
        found += [os.path.relpath(f"{folder}/{name}", TOP) for name in names]
    return tuple(sorted(found))


def pages() -> list[str]:
    """All pages."""
    return [path for path in tracked() if path.endswith(".md")]


@functools.lru_cache(maxsize=None)
def path_ends() -> frozenset[str]:
    """The paths of all files and folders, and what is left of each without its first folders."""
    found: set[str] = set()
    for path in tracked():
        names = path.split("/")
        found |= {"/".join(names[first:last]) for last in range(1, len(names) + 1) for first in range(last)}
    return frozenset(found)


def is_path(code: str, page: str) -> bool:
    """Whether it is a path from the top, from crates/, from the page's folder, or the end of a path, with '*' for any name."""
    path = re.sub(r"^(?:\.\./)+", "", code.rstrip("/"))
    if any(os.path.exists(f"{TOP}/{folder}/{path}") for folder in (".", "crates", os.path.dirname(page))):
        return True
    if not re.search(r"[./]", code):
        return False
    ends = path_ends()
    return bool(fnmatch.filter(ends, path)) if "*" in path else path in ends


def declared_in_rust(text: str) -> set[str]:
    """The items, modules, clauses, fields, variants and imported names of a Rattle file."""
    text = silenced(text)
    found = {*re.findall(r"\b(?:fn|struct|enum|trait|type|const|static|mod|ghost|ensures|requires)\s+(\w+)", text)}
    found |= {*re.findall(r"(?m)^\s*(?:pub(?:\([^)]*\))?\s+)?(\w+)\s*:(?!:)", text)}
    found |= {*re.findall(r"(?m)^\s*([A-Z]\w*)\s*[,({=]", text)}
    for imported in re.findall(r"(?m)^\s*(?:pub(?:\([^)]*\))?\s+)?use\s+([^;]*);", text):
        found |= {*re.findall(r"\w+", imported)}
    return found


def declared_in_definitions(text: str) -> set[str]:
    """The definitions, records, fields and lemmas of a file of definitions or of proofs."""
    text = re.sub(r"(?m)--.*$", "", text)
    found = {*re.findall(r"(?m)^\s*(?:(?:abbrev|unfoldable|opaque|record|data|pub)\s+)+([^\s:(]+)", text)}
    return found | {*re.findall(r"(?m)^\s*([\w-]+) :", text)}


def declared_in_python(text: str) -> set[str]:
    """The functions, classes and names at the top of a Python file."""
    return {*re.findall(r"(?m)^\s*(?:def|class)\s+(\w+)", text), *re.findall(r"(?m)^(\w+)\b[^(\n]*=", text)}


def is_python(path: str) -> bool:
    """Whether it is a file of the desk or of the tools that Python runs."""
    return path.endswith(".py") or path.startswith("tools/") and read(path).startswith("#!/usr/bin/env python3")


@functools.lru_cache(maxsize=None)
def declared() -> frozenset[str]:
    """All names that the sources declare, those of crates and of files among them."""
    found = {*re.findall(r"\w+", read("crates.txt"))}
    for path in tracked():
        if path.startswith("crates/"):
            found |= {*path.split("/")[1:2], path.split("/")[-1].rpartition(".")[0]}
            if path.endswith(".rt"):
                found |= declared_in_rust(read(path))
            elif path.endswith(".antt"):
                found |= declared_in_definitions(read(path))
        elif path.startswith(("tools/", "desk_lib/")) and is_python(path):
            found |= {path.split("/")[-1].removesuffix(".py")} | declared_in_python(read(path))
    return frozenset(found - {""})


@functools.lru_cache(maxsize=None)
def members() -> dict[str, set[str]]:
    """The functions, fields and variants of each type and trait."""
    found: dict[str, set[str]] = {}
    for path in tracked():
        if not (path.startswith("crates/") and path.endswith(".rt")):
            continue
        text = silenced(read(path))
        blocks = owners(text)
        for function in re.finditer(r"\bfn\s+(\w+)", text):
            around = [name for start, end, name in blocks if start < function.start() < end]
            found.setdefault(around[-1] if around else "", set()).add(function[1])
        for head in re.finditer(r"\b(?:struct|enum)\s+(\w+)[^;{]*\{", text):
            body = text[head.end() : end_of(text, head.end() - 1)]
            found.setdefault(head[1], set()).update(re.findall(r"(?m)^\s*(?:pub(?:\([^)]*\))?\s+)?(\w+)\s*[:,({]", body))
    return found


def is_declared(code: str) -> bool:
    """Whether it is the name of something in the sources, as `name`, `Type::name` or `Type::<Other>::name`."""
    names = re.sub(r"::<[^<>]*>", "", code).split("::")
    types = [word for inner in re.findall(r"::<([^<>]*)>", code) for word in re.findall(WORD, inner)]
    if not {*names, *types} <= declared():
        return False
    owner = names[-2] if len(names) > 1 else ""
    return owner not in members() or not owner or names[-1] in members()[owner]


@functools.lru_cache(maxsize=None)
def vocabulary() -> frozenset[str]:
    """The words of the input, logs, reports, fault lines and asks, and those of the examples."""
    found = {word for path in tracked() if path.startswith("examples/") for word in re.findall(WORD, read(path))}
    for path in tracked():
        is_program = re.match(r"crates/(?!\w*_(?:tests|examples|devices)/)\w+/src/\w+\.rt$", path)
        if is_program and not path.endswith("/texts.rt"):
            for string in re.findall(r'b?"((?:[^"\\\n]|\\.)*)"', re.sub(r"(?m)//.*$", "", read(path))):
                found |= {*re.findall(WORD, re.sub(r"\\.|\{\w*\}", " ", string))}
        elif path.startswith(("cases/", "desk_cases/")):
            found.add(path.split("/")[-1])
    found |= {*re.findall(WORD, " ".join(re.findall(r'"([^"\n]*)"', read("tools/run-cases"))))}
    # (the tables of a ward, and their columns)
    found |= {word for table in re.findall(r'(?m)^    "CREATE TABLE (.*)', read("desk_lib/ward/file.py")) for word in re.findall(WORD, table)}
    found |= {word for more in re.findall(r'(?m)^    " (\w.*)",?$', read("desk_lib/ward/file.py")) for word in re.findall(WORD, more)}
    asks = re.findall(r'(?m)^    b"(\w+)": \("([^"]*)"', read("desk_lib/asks.py"))
    return frozenset(found | {word for name, form in asks for word in (name, *re.findall(WORD, form))})


@functools.lru_cache(maxsize=None)
def roster_words() -> tuple[frozenset[str], frozenset[str]]:
    """The commands of the program, and its options."""
    text = read("crates/roster_request/src/program.rt")
    options = re.findall(r'(?:\bname: |: &str = )"([a-z]+)"', text)
    return frozenset(re.findall(r'"([a-z]+)", [A-Z]+, [A-Z]+_HELP', text)), frozenset(f"--{word}" for word in options)


@functools.lru_cache(maxsize=None)
def desk_words() -> tuple[frozenset[str], frozenset[str]]:
    """The commands of the desk, and its options."""
    text = "".join(map(read, ("desk_lib/command_line.py", "desk_lib/parsing.py", "desk_lib/ward/words.py")))
    kinds = re.search(r"(?m)^KINDS = \{(.*)\}", read("desk_lib/texts.py"))
    options = [*re.findall(r'"(--[\w-]+)"', text), *(f"--{kind}" for kind in re.findall(r'"(\w+)":', kinds[1] if kinds else ""))]
    return frozenset(re.findall(r'\b(?:command|of_ward)\(\s*\w+,\s*"(\w+)"', text)), frozenset(options)


@functools.lru_cache(maxsize=None)
def options_of(program: str) -> frozenset[str]:
    """The options of a program, given as a page names it, or of a command of roster or of the desk."""
    (commands, options), (desk_commands, desk_options) = roster_words(), desk_words()
    name, found = program.removeprefix("./"), frozenset(EVERYWHERE)
    if name in ("roster", "look") or name in commands:
        found |= options
    if name == "desk" or name in desk_commands:
        found |= desk_options
    if name == "rt":
        found |= KIT_OPTIONS
    if "/" in program and os.path.isfile(f"{TOP}/{program}"):
        found |= {*re.findall(r"--[a-z][\w-]*", read(program))}
    return found


@functools.lru_cache(maxsize=None)
def all_options() -> frozenset[str]:
    """The options of all programs of the repository."""
    tools = [path for path in tracked() if path.startswith(("tools/", "bench/"))]
    return frozenset().union(*map(options_of, ("roster", "desk", *tools)))


def is_command(words: list[str], page: str) -> bool:
    """Whether it is a command line: a program or a command, then words and options that it takes."""
    first, more = words[0], words[1:]
    commands = {"roster": roster_words()[0], "desk": desk_words()[0], "look": roster_words()[0], "rt": KIT_WORDS}
    subcommands = commands.get(first.removeprefix("./"))
    is_program = subcommands is not None or ("/" in first and os.access(f"{TOP}/{first}", os.X_OK))
    if not is_program and first not in roster_words()[0] | desk_words()[0]:
        return False
    if subcommands and more and not more[0].startswith("-"):
        if more[0] not in subcommands:
            return False
        more = more[1:]
    options = options_of(first)
    return all(is_argument(word, options, page) for word in more)


def is_argument(word: str, options: frozenset[str], page: str) -> bool:
    """Whether a command line may have the word: an option, a path, a name of the input, a number or a placeholder."""
    if word.startswith("--"):
        return word == "--" or word.partition("=")[0] in options
    return is_file(word, page) or all(map(is_word, re.findall(WORD, word)))


@functools.lru_cache(maxsize=None)
def blocks_of(page: str) -> str:
    """The text of a page's fenced blocks."""
    return "\n".join(re.findall(r"(?ms)^```.*?^```", read(page)))


def is_file(code: str, page: str) -> bool:
    """Whether it is a path, or a file that a command of the page's blocks writes."""
    is_written = re.fullmatch(FILE_NAME, code) and re.search(rf"(?<![\w.-]){re.escape(code)}\b", blocks_of(page))
    return bool(is_written) or is_path(code, page)


@functools.lru_cache(maxsize=None)
def words_of_tool(page: str) -> frozenset[str]:
    """The words of the files next to the page of a tool."""
    folder = os.path.dirname(page)
    files = [path for path in tracked() if path.startswith(f"{folder}/") and path != page] if folder.startswith("tools/") else []
    return frozenset(word for path in files for word in re.findall(WORD, read(path)))


def is_word(word: str) -> bool:
    """Whether a word of a longer text is known: a name, a word of the texts, a letter or a placeholder in capitals."""
    return word in declared() or word in vocabulary() or re.fullmatch(r"[A-Z]+|[a-z]", word) is not None


def is_known(code: str, page: str) -> bool:
    """Whether what a page has between backticks is there."""
    if any(code in allowed for allowed in ALLOWED.values()) or len(code) == 1:
        return True
    if is_declared(code) or is_file(code, page) or code in vocabulary() or code in words_of_tool(page):
        return True
    words = code.split()
    if not words or is_command(words, page):
        return bool(words)
    if code.startswith("--"):
        return all(is_argument(word, all_options(), page) for word in words)
    if code.startswith("Rattle."):
        return is_path(code.removeprefix("Rattle.").replace(".", "/"), page)
    is_text = len(words) > 1 or re.search(r"[()=,]|^\d+:\w+$|^\d+$", code)
    return bool(is_text) and all(map(is_word, re.findall(WORD, code)))

"""The calls of the program, as its sources write them: which function calls which, from `main` on.

A name is resolved as Rust does it: through the `use` lines of its file, what a crate hands on by `pub use`, and the blocks `impl`. Of
a method call, the type of the value is found by the declarations of parameters, fields, results and `let`. If that doesn't show it, each
method of that name is taken which the crate may call. A call of a trait's method leads to the methods of those types for which the
trait's generic functions are called; if such a type can't be seen, it leads to all that implement the trait.

So a function that isn't reached here isn't called. Calls that no source writes aren't looked for: those of `Drop`, of `From` by `?`,
and of operators.
"""
import collections
import dataclasses
import functools
import os
import re

from public_calls import OPENS, end_of, silenced

TOP = os.path.dirname(os.path.dirname(os.path.realpath(__file__)))
PROGRAM = "roster"
# Types that only wrap another one, for what a call gives in the end.
WRAPS = ("Result", "Option", "Box")
GENERIC = r"(?:::<(?:[^<>()]|<[^<>]*>)*>)?"
CALL = re.compile(rf"(?<![\w.])((?:\w+{GENERIC}::)*)(\w+){GENERIC}\s*\(|\.(\w+){GENERIC}\s*\(")
NOT_CALLS = {"if", "match", "while", "for", "return", "in", "let", "Some", "Ok", "Err", "fn", "move", "as"}


@dataclasses.dataclass(frozen=True)
class Function:
    """A function: where it is, the type or trait that has it, if any, and the trait that an impl is of."""

    path: str
    owner: str
    trait: str
    name: str
    at: int

    @property
    def crate(self) -> str:
        return self.path.split("/")[0]


@dataclasses.dataclass
class Source:
    """A file: its text without comments and strings, the names that it imports, and its functions with their heads and bodies."""

    text: str
    uses: dict[str, str]
    heads: dict[Function, str]
    bodies: dict[Function, tuple[int, str]]


# A type is the crate that declares it and its name; a type parameter is '' and the traits that it has to have.
Type = tuple[str, str]


def below(crate: str) -> set[str]:
    """A crate, and all crates that it depends on."""
    found, left = set(), [crate]
    while left:
        name = left.pop()
        if name not in found and name in depends():
            found.add(name)
            left += depends()[name]
    return found


@functools.lru_cache(maxsize=None)
def depends() -> dict[str, list[str]]:
    """The crates that each crate depends on."""
    with open(f"{TOP}/crates.txt", encoding="utf-8") as file:
        lines = re.findall(r"(?m)^(\w+):(.*)$", file.read())
    return {name: [other for other in others.split() if other.startswith("roster")] for name, others in lines}


# ---- the parts of a file


def imported(text: str) -> dict[str, str]:
    """What each imported name stands for, as a path."""
    found: dict[str, str] = {}

    def add(prefix: str, rest: str) -> None:
        rest = rest.strip()
        head, brace, _ = rest.partition("{")
        if brace:
            for item in split_at_commas(rest[len(head) + 1 : rest.rindex("}")]):
                add(prefix + head.strip(), item)
        elif rest:
            path, _, alias = rest.partition(" as ")
            path = (prefix + path.strip()).removesuffix("::self")
            found[alias.strip() or path.split("::")[-1]] = path

    for line in re.findall(r"(?m)^\s*(?:pub(?:\([^)]*\))?\s+)?use\s+([^;]*);", re.sub(r"(?m)^\s*ghost use [^;]*;", "", text)):
        add("", line)
    return found


def split_at_commas(text: str) -> list[str]:
    """The parts of a list between brackets, without those of inner brackets."""
    parts, depth, start = [], 0, 0
    for at, mark in enumerate(text):
        depth += (mark in "([{<") - (mark in ")]}") - (mark == ">" and text[at - 1 : at] not in ("-", "="))
        if mark == "," and not depth:
            parts.append(text[start:at])
            start = at + 1
    return [part for part in (*parts, text[start:]) if part.strip()]


def body_after(text: str, at: int) -> tuple[int, int]:
    """Where the head of a function ends and where its body opens, from the position after its name; -1 if it has no body."""
    head = -1
    while at < len(text) and text[at] not in "{;":
        clause = re.compile(r"(ensures|requires)\b\*?\s*(?:\w+\s*:?\s*)?").match(text, at)
        if clause:
            head = at if head < 0 else head
            at = end_of(text, clause.end())
        elif text[at] in OPENS:
            at = end_of(text, at)
        at += 1
    head = at if head < 0 else head
    return head, at if at < len(text) and text[at] == "{" else -1


def blocks_of(text: str) -> list[tuple[int, int, str, str]]:
    """The blocks of impls and traits: from where, to where, of which type or trait, and of which trait an impl is."""
    found = []
    for block in re.finditer(r"(?m)^\s*(?:pub(?:\([^)]*\))?\s+)?(impl|trait)\b([^{;]*)\{", text):
        head = re.sub(r"\bwhere\b.*", "", block[2], flags=re.S)
        while re.search(r"<[^<>]*>", head):
            head = re.sub(r"<[^<>]*>", " ", head)
        trait, _, name = head.rpartition(" for ") if " for " in head else ("", "", head)
        names = [re.search(r"\w[\w:]*", part) for part in (name.partition(":")[0] if block[1] == "trait" else name, trait)]
        own, of = (part[0].split("::")[-1] if part else "" for part in names)
        found.append((block.start(), end_of(text, block.end() - 1), own, own if block[1] == "trait" else of))
    return found


@functools.lru_cache(maxsize=None)
def source(path: str) -> Source:
    """The parts of a file, given by its path from crates/ on."""
    with open(f"{TOP}/crates/{path}", encoding="utf-8") as file:
        text = silenced(file.read())
    blocks, heads, bodies = blocks_of(text), {}, {}
    for found in re.finditer(r"\bfn\s+(\w+)", text):
        around = [block for block in blocks if block[0] < found.start() < block[1]]
        owner, trait = around[-1][2:] if around else ("", "")
        function = Function(path, owner, trait, found[1], found.start())
        head, opens = body_after(text, found.end())
        heads[function] = text[found.end() : head]
        bodies[function] = (opens, text[opens : end_of(text, opens) + 1] if opens >= 0 else "")
    return Source(text, imported(text), heads, bodies)


@functools.lru_cache(maxsize=None)
def files_of(crate: str) -> tuple[str, ...]:
    """The files of a crate's code, from crates/ on."""
    folder = f"{TOP}/crates/{crate}/src"
    return tuple(f"{crate}/src/{name}" for name in sorted(os.listdir(folder)) if name.endswith(".rt")) if os.path.isdir(folder) else ()


@functools.lru_cache(maxsize=None)
def program() -> tuple[str, ...]:
    """The files of all crates that the program is built of."""
    return tuple(path for crate in sorted(below(PROGRAM)) for path in files_of(crate))


# ---- what a name stands for


def found_in_crate(crate: str, name: str) -> str:
    """The file in which a crate declares what it exports under a name, whether it is its own or another crate's; '' if there is none."""
    root = f"{crate}/src/lib.rt" if f"{crate}/src/lib.rt" in files_of(crate) else f"{crate}/src/main.rt"
    if root not in files_of(crate):
        return ""
    if re.search(rf"\b(?:fn|struct|enum|trait|type)\s+{name}\b", source(root).text):
        return root
    return place_of(root, source(root).uses[name]) if name in source(root).uses else ""


def place_of(path: str, target: str) -> str:
    """The file that declares what a path of names leads to, from a file on; '' if it is none of this repository's."""
    crate, parts = path.split("/")[0], target.split("::")
    if parts[0] == "crate":
        parts = parts[1:]
    elif parts[0].startswith("roster") and parts[0] in depends():
        crate, parts = parts[0], parts[1:]
    elif f"{crate}/src/{parts[0]}.rt" not in files_of(crate):
        return ""
    module = f"{crate}/src/{parts[0]}.rt" if parts else ""
    if len(parts) > 1 and module in files_of(crate):
        if re.search(rf"\b(?:fn|struct|enum|trait|type)\s+{parts[1]}\b", source(module).text):
            return module
        return place_of(module, source(module).uses[parts[1]]) if parts[1] in source(module).uses else ""
    return found_in_crate(crate, parts[0]) if parts else ""


def file_of(path: str, name: str) -> str:
    """The file that declares what a name of a file stands for; '' if it is none of this repository's."""
    if re.search(rf"\b(?:fn|struct|enum|trait|type)\s+{name}\b", source(path).text):
        return path
    return place_of(path, source(path).uses[name]) if name in source(path).uses else ""


@functools.lru_cache(maxsize=None)
def type_in(path: str, name: str) -> Type | None:
    """The type or trait that a name of a file stands for, through aliases; None if it is none of this repository's."""
    target = source(path).uses.get(name, name).split("::")[-1]
    home = file_of(path, name)
    if not home:
        return None
    alias = re.search(rf"\btype\s+{target}\b[^=;]*=\s*([^;]*);", source(home).text)
    if alias:
        last = re.match(r"\s*((?:\w+::)*)(\w+)", alias[1])
        if last and last[1]:
            there = place_of(home, last[1] + last[2])
            return type_in(there, last[2]) if there else None
        return type_in(home, last[2]) if last and last[2] != target else None
    return home.split("/")[0], target


def core(text: str) -> str:
    """A written type without references, and without what only wraps it."""
    text = re.sub(r"^(?:&|mut\b|dyn\b|'\w+|\s)+", "", text.strip())
    wrapped = re.match(r"(\w+)\s*<(.*)>$", text, re.S)
    if wrapped and wrapped[1] in WRAPS:
        return core(split_at_commas(wrapped[2])[0])
    return text


@dataclasses.dataclass(frozen=True)
class Scope:
    """Where a type is written: the file, the heads that declare its type parameters, and what `Self` is."""

    path: str
    heads: tuple[str, ...]
    own: str


@functools.lru_cache(maxsize=None)
def scope_of(function: Function) -> Scope:
    """Where the types of a function are written: its head, and that of the block around it."""
    text = source(function.path).text
    around = [text[start : text.find("{", start)] for start, end, *_ in blocks_of(text) if start < function.at < end]
    return Scope(function.path, (source(function.path).heads[function], *around), function.owner)


def traits_of_parameter(scope: Scope, name: str) -> list[str]:
    """The traits that a type parameter has to have; nothing if there is no such parameter."""
    for head in scope.heads:
        bound = re.search(rf"[<,]\s*{name}\s*:\s*([^,>]*)", head) or re.search(rf"\bwhere\b[\s\S]*\b{name}\s*:\s*([^,{{]*)", head)
        if bound:
            return re.findall(r"\b[A-Z]\w*", bound[1])
    return []


def written_type(scope: Scope, text: str) -> list[Type]:
    """The types that a written type can be: one, or the traits of a type parameter; nothing if it is none of this repository's."""
    text = core(text)
    head = re.match(r"(?:impl\s+)?((?:\w+::)*)(\w+)", text)
    if not head:
        return []
    if head[2] == "Self":
        return [kind for kind in [type_in(scope.path, scope.own)] if kind]
    traits = re.findall(r"\b[A-Z]\w*", text) if text.startswith("impl") else traits_of_parameter(scope, head[2])
    path = place_of(scope.path, head[1] + head[2]) if head[1] and not traits else scope.path
    found = [type_in(path, name) for name in traits or [head[2]]] if path else []
    return [kind for kind in found if kind]


def own_types(function: Function) -> list[Type]:
    """The type of the block around a function."""
    kind = type_in(function.path, function.owner)
    return [kind] if kind else []


# ---- the types of values


def parameters(function: Function) -> dict[str, str]:
    """The types of a function's parameters, as they are written."""
    head = source(function.path).heads[function]
    opens = re.search(r"^\s*(?:<(?:[^()<>]|<(?:[^<>]|<[^<>]*>)*>|->|\([^()]*\))*>)?\s*\(", head)
    if not opens:
        return {}
    start = opens.end() - 1
    pairs = (part.partition(":") for part in split_at_commas(head[start + 1 : end_of(head, start)]))
    return {re.sub(r"\bmut\b|&|\s", "", name): kind.strip() for name, _, kind in pairs if kind}


def returned(function: Function) -> str:
    """What a function gives, as it is written; '' if nothing."""
    head = source(function.path).heads[function]
    arrow = re.search(r"\)\s*->\s*(.*)\s*$", head, re.S)
    return arrow[1].strip() if arrow else ""


def takes_itself(function: Function) -> bool:
    """Whether a function is a method."""
    return re.search(r"\(\s*(?:&\s*)?(?:'\w+\s+)?(?:mut\s+)?self\b", source(function.path).heads[function]) is not None


@functools.lru_cache(maxsize=None)
def methods() -> dict[str, list[Function]]:
    """The functions of types and traits in the program, by their names."""
    found = collections.defaultdict(list)
    for path in program():
        for function in source(path).heads:
            if function.owner:
                found[function.name].append(function)
    return found


def methods_of(kind: Type, name: str) -> list[Function]:
    """The functions of this name that a type, or a trait, has."""
    return [function for function in methods()[name] if type_in(function.path, function.owner) == kind]


def field_types(kinds: list[Type], name: str) -> list[Type]:
    """The types of a field of these types."""
    for crate, owner in kinds:
        for path in files_of(crate):
            text = source(path).text
            struct = re.search(rf"\bstruct\s+{owner}\b([^;{{(]*)\{{", text)
            if struct:
                body = text[struct.end() : end_of(text, struct.end() - 1)]
                field = re.search(rf"(?m)^\s*(?:pub(?:\([^)]*\))?\s+)?{name}\s*:\s*(.*?),?\s*$", body)
                return written_type(Scope(path, (struct[1],), owner), field[1]) if field else []
    return []


def value_types(function: Function, text: str, depth: int = 0) -> list[Type] | None:
    """The types that the value of an expression can have; None if they can't be seen."""
    text = re.sub(r"^(?:&|\*|mut\b|\s)+", "", text.strip()).rstrip("? \n")
    if depth > 12 or not text:
        return None
    if text == "self":
        return own_types(function)
    if re.fullmatch(r"\w+", text):
        return variable_types(function, text, depth)
    if re.match(r"[\"\[]|\d", text):
        return []
    field = re.fullmatch(r"(.*[^.])\.\s*(\w+)", text, re.S)
    if field:
        kinds = value_types(function, field[1], depth + 1)
        return kinds and field_types(kinds, field[2])
    if text.endswith(")"):
        opens = opening(text, len(text) - 1)
        return results(function, text[:opens], depth)
    literal = re.match(r"(?:\w+::)*([A-Z]\w*)\s*\{", text)
    return written_type(scope_of(function), literal[1]) if literal else None


def opening(text: str, at: int) -> int:
    """Where the bracket that closes at this position is opened."""
    depth = 0
    for index in range(at, -1, -1):
        depth += (text[index] in ")]}") - (text[index] in OPENS)
        if not depth:
            return index
    return 0


def results(function: Function, callee: str, depth: int) -> list[Type] | None:
    """The types of what a call gives, from what stands before its arguments."""
    called = re.search(rf"(?:^|[^\w.])((?:\w+{GENERIC}::)*)(\w+){GENERIC}\s*$", callee)
    method = re.search(rf"^(.*)\.\s*(\w+){GENERIC}\s*$", callee, re.S)
    if method:
        kinds = value_types(function, method[1], depth + 1)
        if kinds is None:
            return None
        targets = [target for kind in kinds for target in methods_of(kind, method[2])]
        # what a value of another type gives can be one of ours, as of a list
        if not targets:
            return None
    elif called:
        targets = called_by(function, called[1], called[2])
        if not targets and re.match(r"[A-Z]", called[2]):
            return written_type(scope_of(function), called[2])
    else:
        return None
    return [kind for target in targets for kind in written_type(scope_of(target), returned(target))] if targets else None


def variable_types(function: Function, name: str, depth: int) -> list[Type] | None:
    """The types of a variable: of a parameter, or of what a `let` of the body puts into it."""
    own = parameters(function)
    pattern = rf"\blet\s+(?:\w+\()?(?:mut\s+)?{name}\)?\s*(?::\s*([^=;]+))?=\s*"
    found = list(re.finditer(pattern, source(function.path).bodies[function][1]))
    if found:
        kinds: list[Type] = []
        for binding in found:
            body = source(function.path).bodies[function][1]
            given = expression(body, binding.end())
            more = written_type(scope_of(function), binding[1]) if binding[1] else value_types(function, given, depth + 1)
            if more is None:
                return None
            kinds += more
        return kinds
    return written_type(scope_of(function), own[name]) if name in own else None


def expression(text: str, at: int) -> str:
    """The expression that begins at a position, up to a `;`, an `else` or a comma outside of brackets."""
    start = at
    while at < len(text) and text[at] not in ";,)]}":
        if re.compile(r"\selse\b").match(text, at):
            break
        at = end_of(text, at) + 1 if text[at] in OPENS else at + 1
    return text[start:at].strip()


# ---- calls


def called_by(function: Function, prefix: str, name: str) -> list[Function]:
    """The functions that a name with the path before it stands for in a function."""
    parts = [part for part in re.sub(GENERIC, "", prefix).split("::") if part]
    last = parts[-1] if parts else ""
    if last == "Self":
        return [target for kind in own_types(function) for target in methods_of(kind, name)]
    if re.match(r"[A-Z]", last):
        kinds = written_type(scope_of(function), "::".join(parts))
        return [target for kind in kinds for target in methods_of(kind, name)]
    home = place_of(function.path, "::".join([*parts, name])) if parts else file_of(function.path, name)
    if parts and not home and parts[0] in source(function.path).uses:
        home = place_of(function.path, "::".join([source(function.path).uses[parts[0]], *parts[1:], name]))
    own = source(function.path).uses.get(name, name).split("::")[-1] if not parts else name
    return [target for target in source(home).heads if target.name == own and not target.owner] if home else []


def receiver(text: str, dot: int) -> str:
    """The expression before the dot of a method call."""
    at = dot
    while at > 0:
        before = text[at - 1]
        if before in ")]":
            at = opening(text, at - 1)
        elif before == ">" and "::<" in text[:at]:
            at = text.rindex("::<", 0, at)
        elif re.match(r"[\w.:?]", before) or (before.isspace() and re.match(r"\s*\.", text[at - 1 :])):
            at -= 1
        else:
            break
    return text[at:dot].strip()


def arguments(text: str, opens: int) -> list[str]:
    """The arguments of a call, from its bracket on."""
    return [part.strip() for part in split_at_commas(text[opens + 1 : end_of(text, opens)])]


@dataclasses.dataclass
class Calls:
    """The functions that one calls, and the types for which it calls functions with a type parameter of a trait: the trait, and the type
    or None if that can't be seen."""

    targets: list[Function]
    instances: list[tuple[Type, Type | None]]


@functools.lru_cache(maxsize=None)
def calls(function: Function) -> Calls:
    """The calls that a function's body writes."""
    _, body = source(function.path).bodies[function]
    found = Calls([], [])
    for call in CALL.finditer(body):
        if call[3]:
            targets = method_targets(function, body, call.start(), call[3])
        else:
            targets = [] if call[2] in NOT_CALLS else called_by(function, call[1], call[2])
        found.targets += targets
        for target in targets:
            found.instances += instances(function, target, arguments(body, call.end() - 1))
    return found


def method_targets(function: Function, body: str, dot: int, name: str) -> list[Function]:
    """The methods that a call of a method can be of."""
    kinds = value_types(function, receiver(body, dot))
    if kinds is None:
        seen = below(function.crate)
        return [target for target in methods()[name] if takes_itself(target) and target.crate in seen]
    return [target for kind in kinds for target in methods_of(kind, name)]


def instances(function: Function, target: Function, given: list[str]) -> list[tuple[Type, Type | None]]:
    """For which types a call calls a function whose parameters have types with traits."""
    found: list[tuple[Type, Type | None]] = []
    for argument, kind in zip(given, parameters(target).values()):
        for trait in traits_of_parameter(scope_of(target), core(kind)) if re.fullmatch(r"\w+", core(kind)) else ():
            of = type_in(target.path, trait)
            kinds = value_types(function, argument) if of else []
            if of and kinds is None:
                found.append((of, None))
            elif of and kinds:
                found += [(of, one) for one in kinds if one != of]
    return found


def is_trait(kind: Type) -> bool:
    """Whether it is a trait."""
    return any(re.search(rf"\btrait\s+{kind[1]}\b", source(path).text) for path in files_of(kind[0]))


@functools.lru_cache(maxsize=None)
def reached() -> dict[Function, frozenset[Function]]:
    """The functions that the program calls from `main` on, each with those that it calls."""
    root = f"{PROGRAM}/src/main.rt"
    found: dict[Function, frozenset[Function]] = {}
    types: dict[Type, set[Type | None]] = collections.defaultdict(set)
    changed = True
    while changed:
        changed, left, seen = False, [target for target in source(root).heads if target.name == "main"], {}
        while left:
            function = left.pop()
            if function in seen:
                continue
            own = calls(function)
            for trait, kind in own.instances:
                changed |= kind not in types[trait]
                types[trait].add(kind)
            seen[function] = frozenset([*own.targets, *implementations(function, types)])
            left += seen[function]
        found = seen
    return found


def implementations(function: Function, types: dict[Type, set[Type | None]]) -> list[Function]:
    """The functions of types that a call of a trait's function leads to."""
    trait = type_in(function.path, function.owner) if function.owner and function.owner == function.trait else None
    if trait is None or not is_trait(trait):
        return []
    kinds = types[trait]
    of_types = [target for target in methods()[function.name] if target.trait and target.owner != target.trait
                and type_in(target.path, target.trait) == trait]
    return [target for target in of_types if not kinds or None in kinds or type_in(target.path, target.owner) in kinds]


def functions_of(path: str, cited: str) -> list[Function]:
    """The functions of a file that a page cites as `name` or as `Type::name`."""
    names = re.sub(GENERIC, "", cited).split("::")
    return [function for function in source(path).heads
            if function.name == names[-1] and (len(names) == 1 or function.owner == names[-2])]


def is_law(function: Function) -> bool:
    """Whether a function can do nothing: it gives nothing and changes nothing that it is passed."""
    head = source(function.path).heads[function]
    return not returned(function) and not re.search(r"&\s*(?:'\w+\s+)?mut\b", head) and not takes_itself(function)

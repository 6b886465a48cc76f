"""What a request of the page asks for, read field by field, and how it is refused."""
import typing

from desk_lib.texts import DeskError, shown

Json = dict[str, typing.Any]


class Refused(Exception):
    """A request that isn't done: the status of HTTP, what kind of refusal it is, and why in words for the planner."""

    def __init__(self, status: int, kind: str, words: str, **more: typing.Any):
        super().__init__(words)
        self.status, self.kind, self.words, self.more = status, kind, words, more

    def json(self) -> Json:
        return {"kind": self.kind, "words": self.words, **self.more}


def refused(words: str, field: str = "", kind: str = "refused", **more: typing.Any) -> Refused:
    """A request that the desk doesn't take, because of this field if one is named."""
    return Refused(422, kind, words, **({"field": field} if field else {}), **more)


def none_such(words: str) -> Refused:
    return Refused(404, "none", words)


def number_in(given: Json, field: str, least: int, greatest: int, default: int | None = None) -> int:
    """The number of a field, from the least to the greatest."""
    value = given.get(field, default)
    if isinstance(value, bool) or not isinstance(value, int) or not least <= value <= greatest:
        raise refused(f"{field}: a number from {least} to {greatest} is due", field)
    return value


def maybe_number_in(given: Json, field: str, least: int, greatest: int) -> int | None:
    """As `number_in`, and None if the field isn't there or is null."""
    return None if given.get(field) is None else number_in(given, field, least, greatest)


def flag_in(given: Json, field: str) -> bool:
    value = given.get(field, False)
    if not isinstance(value, bool):
        raise refused(f"{field}: true or false is due", field)
    return value


def text_in(given: Json, field: str, longest: int) -> str:
    value = given.get(field)
    if not isinstance(value, str) or not value.strip() or len(value) > longest:
        raise refused(f"{field}: a text of 1 to {longest} letters is due", field)
    return value.strip()


def list_in(given: Json, field: str, most: int) -> list[Json]:
    """The list of a field, each of whose parts is an object."""
    value = given.get(field)
    if not isinstance(value, list) or not 1 <= len(value) <= most or not all(isinstance(part, dict) for part in value):
        raise refused(f"{field}: a list of 1 to {most} is due", field)
    return value


def of_desk(why: DeskError) -> Refused:
    """A refusal of the desk, in words for the screen: what names commands and options of a terminal is left out."""
    kinds = {2: (422, "refused"), 1: (422, "refused")}
    status, kind = kinds.get(why.status, (503, "program"))
    return Refused(status, kind, for_screen(str(why)))


def for_screen(message: str) -> str:
    """A message of the desk without its clauses on commands and options."""
    sentences = []
    for sentence in message.split(". "):
        clauses = [clause for clause in sentence.split("; ") if not ("'desk " in clause or "--" in clause)]
        if clauses:
            sentences.append("; ".join(clauses))
    return shown(". ".join(sentences) or message)

"""What is wrong with texts: a place and a sentence for each, and the words that are nearest to an unknown one."""
import collections.abc
import dataclasses
import functools

from desk_lib.grammar import Words
from desk_lib.texts import DeskError, Place, shown


# A file and the number of a line in it.
LineKey = tuple[str, int]


@dataclasses.dataclass(frozen=True)
class Finding:
    """A fault: the byte of the joined text where it stands, or -1 if it has no place; the place, and what is wrong."""

    offset: int
    place: Place | None
    message: str

    def lines(self) -> list[str]:
        """The lines that report it."""
        if self.place is None:
            return [self.message]
        head = f"{self.place}: {self.message}"
        return [head, *self.place.lines()] if self.place.text.strip() else [head]

    def line_key(self) -> LineKey | None:
        return (self.place.file, self.place.line) if self.place else None


def of_words(words: Words, first: int, last: int, message: str) -> Finding:
    """A finding of the words from one to another, by their numbers."""
    offset = words.offset(first)
    length = words.offset(last) + len(words.words[last]) - offset
    return Finding(offset, words.texts.place(offset, length), message)


@functools.lru_cache(maxsize=10_000)
def nearest_names(word: bytes, known: frozenset[bytes] | tuple[bytes, ...]) -> list[str]:
    """The known words most like this one, at most three, capitals and small letters being the same."""
    # (a start of the desk is the quicker without this import)
    import difflib

    folded = {shown(name).casefold(): shown(name) for name in sorted(known, reverse=True)}
    found = difflib.get_close_matches(shown(word).casefold(), [*folded], n=3, cutoff=0.6)
    return [folded[name] for name in found]


def nearest(word: bytes, known: collections.abc.Iterable[bytes]) -> str:
    """A clause that names the known words like this one, if there are any."""
    found = nearest_names(word, frozenset(known))
    return f"; nearest: {', '.join(found)}" if found else ""


def numbered(what: str, word: bytes, names: list[bytes]) -> int:
    """The number of a name of the scenario: of a nurse, a shift or a skill."""
    if word not in names:
        like = nearest(word, names) or ("" if what == "nurse" else f"; it has {', '.join(map(shown, names))}")
        raise DeskError(f"the scenario has no {what} '{shown(word)}'{like}", 2)
    return names.index(word)


def also(count: int) -> str:
    """A clause for the other places of a fault that is reported once."""
    return "" if not count else " (so does 1 more line)" if count == 1 else f" (so do {count} more lines)"

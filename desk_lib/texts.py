"""The files of a bundle as they were given, and places in them."""
import bisect
import dataclasses
import os
import re
import unicodedata

# What a file is, by the option that names it.
KINDS = {"sce": "scenario", "his": "history", "weeks": "week data", "sols": "solution"}

# What an editor may begin a text with.
UTF8_MARK = b"\xef\xbb\xbf"
# What is said of a dash that is no file.
DASH = "'-' is a file's name, and standard input is read if no file is named"
# What the solutions of a run are called that are in no file yet.
SO_FAR = "the roster so far"

# How many bytes of a line are kept before a word and after it.
AROUND = 400
# An edit of a text, which replaces some bytes: from where, how many, and with what.
Edit = tuple[int, int, bytes]


class DeskError(Exception):
    """Why a command can't go on: a line that says what to do, and the status to end with."""

    def __init__(self, message: str, status: int = 1):
        super().__init__(message)
        self.status = status


def is_shown(letter: str) -> bool:
    """Whether a letter may be shown as it is: a control character may not, nor one that can't be seen."""
    return letter.isprintable() and unicodedata.category(letter) not in ("Cf", "Co")


def shown(word: bytes | str) -> str:
    """A word as it can be shown anywhere: bytes that are no UTF-8, and letters that can't be seen, by their numbers."""
    word = os.fsencode(word) if isinstance(word, str) else word
    letters = word.decode("utf-8", "backslashreplace")
    return "".join(letter if is_shown(letter) else letter.encode("unicode_escape").decode() for letter in letters)


def plural(count: int, what: str) -> str:
    return f"{count} {what}{'' if count == 1 else 's'}"


def columns(text: str) -> int:
    """How many columns of a terminal the text takes."""
    widths = [2 if unicodedata.east_asian_width(letter) in "WF" else 1 for letter in text if not unicodedata.combining(letter)]
    return sum(widths)


def cut(text: str, width: int) -> str:
    """The text in this number of columns: filled up with blanks, or cut with a mark at its end."""
    if columns(text) > width:
        while columns(text) > width - 1:
            text = text[:-1]
        text += "…"
    return text + " " * (width - columns(text))


@dataclasses.dataclass(frozen=True)
class Origin:
    """Of what a text was made: the bytes of the file, and the parts of the text, each by where it begins, where the word stands in
    the file of which it was made, and how long that is."""

    data: bytes
    parts: list[tuple[int, int, int]]

    def word_at(self, at: int) -> tuple[int, int]:
        """The word of which a byte of the text was made."""
        _, first, length = self.parts[max(0, bisect.bisect_right(self.parts, at, key=lambda part: part[0]) - 1)]
        return first, length

    def moved(self, at: int, count: int) -> "Origin":
        """With this number of bytes more in the text at one of them."""
        return Origin(self.data, [(begin + count * (begin > at), first, length) for begin, first, length in self.parts])


@dataclasses.dataclass(frozen=True)
class Text:
    """A file: the name by which it was given, its bytes, and the option that named it, if one did. If the bytes were made of others, or
    edited, it has these, too."""

    name: str
    data: bytes
    kind: str = ""
    origin: Origin | None = None
    before: bytes | None = None

    @property
    def given(self) -> bytes:
        """The bytes in which its places are."""
        return self.origin.data if self.origin else self.data

    @property
    def read(self) -> bytes:
        """The bytes of the file."""
        return self.given if self.before is None else self.before

    def edited(self, start: int, edits: list[Edit]) -> "Text":
        """The text, which begins at this byte of all texts, with those of the edits that are of it."""
        data, origin = self.data, self.origin
        for at, length, new in sorted(edits, reverse=True):
            if start <= at < start + len(self.data) + (length == 0):
                data = data[: at - start] + new + data[at - start + length :]
                origin = origin and origin.moved(at - start, len(new) - length)
        return dataclasses.replace(self, data=data, origin=origin, before=self.read)


@dataclasses.dataclass(frozen=True)
class Place:
    """A word in a file, with the line's text around it. Lines count from 1, and columns, in that text, by bytes from 0. At a
    file's end the word has no length."""

    file: str
    line: int
    text: bytes
    column: int = 0
    length: int = 0

    def __str__(self) -> str:
        return f"{shown(self.file)}:{self.line}"

    def lines(self) -> list[str]:
        """The line's text, and a line that marks the word below it."""
        end = self.column + self.length
        parts = self.text[: self.column], self.text[self.column : end], self.text[end:]
        before, word, after = (shown(part.replace(b"\t", b" ")) for part in parts)
        if columns(before) > 60:
            before = "…" + before[-50:]
        mark = " " * columns(before) + "^" * max(1, columns(word))
        return [f"    {(before + word + after)[:150]}".rstrip(), f"    {mark[:150]}"]


class Texts:
    """The files of a bundle, joined as the program reads them: with one line end more after each file."""

    # (the ward of which they are, if they are of one)
    ward = ""

    def __init__(self, texts: list[Text], is_stream: bool = False):
        self.texts, self.is_stream = texts, is_stream
        self.lines: dict[int, list[int]] = {}
        parts = [text.data + (b"" if is_stream else b"\n") for text in texts]
        self.joined = b"".join(parts)
        self.starts = [0]
        for part in parts:
            self.starts.append(self.starts[-1] + len(part))

    def before(self, offset: int, more: list[Text]) -> "Texts":
        """The texts up to a byte, and other files after them."""
        if self.is_stream:
            kept = [Text(self.texts[0].name, self.joined[:offset])]
        else:
            kept = [
                Text(text.name, text.data[: max(0, offset - start)], text.kind)
                for text, start in zip(self.texts, self.starts)
                if start < offset
            ]
        return Texts(kept + more)

    def edited(self, edits: list[Edit]) -> "Texts":
        """The texts with edits, whose bytes are those of the joined text."""
        return Texts([text.edited(start, edits) for text, start in zip(self.texts, self.starts)], self.is_stream)

    def index(self, offset: int) -> int:
        """The number of the file in which a byte stands; the last one's at the end."""
        return min(bisect.bisect_right(self.starts, offset) - 1, len(self.texts) - 1)

    def place(self, offset: int, length: int = 0) -> Place:
        """Where a byte of the joined text stands. The end of everything is the end of the last line that has a word."""
        text = self.texts[self.index(offset)]
        at = offset - self.starts[self.index(offset)]
        if at >= len(text.data):
            at = len(text.data.rstrip(b" \t\r\n"))
        if text.origin:
            at, length = text.origin.word_at(at)
        starts = self.line_starts(self.index(offset))
        number = bisect.bisect_right(starts, at)
        last = starts[number] if number < len(starts) else len(text.given)
        # (a line may be as long as the file)
        first, last = max(starts[number - 1], at - AROUND), min(last, at + length + AROUND)
        return Place(text.name, number, text.given[first:last].rstrip(b"\r\n"), at - first, length)

    def line_starts(self, index: int) -> list[int]:
        """The bytes of a file at which its lines begin."""
        if index not in self.lines:
            self.lines[index] = [0, *(match.end() for match in re.finditer(rb"\n", self.texts[index].given))]
        return self.lines[index]

    def line_start(self, number: int) -> int:
        """The byte at which a line of the joined text begins, as the program counts lines."""
        at = 0
        for start, text in zip(self.starts, self.texts):
            lines = text.data.count(b"\n") + 1
            if number <= lines:
                at = start
                break
            number -= lines
        else:
            return len(self.joined)
        for _ in range(number - 1):
            at = self.joined.index(b"\n", at) + 1
        return at


def read_file(name: str, kind: str = "") -> Text:
    """The file of this name."""
    try:
        with open(name, "rb") as file:
            return Text(name, file.read(), kind)
    except IsADirectoryError:
        raise DeskError(f"{shown(name)}: this is a folder; name the files in it", 3) from None
    except (OSError, ValueError) as why:
        reason = getattr(why, "strerror", None) or str(why)
        remedy = DASH if name == "-" else "give the name of a file that can be read"
        raise DeskError(f"{shown(name)}: read failed: {reason}; {remedy}", 3) from None

"""What can't be seen in an editor and keeps the program from reading a text, or stands there as part of a word."""
import re

from desk_lib.findings import Finding, LineKey, also
from desk_lib.grammar import WORD
from desk_lib.table_in import begin_of, table_in
from desk_lib.texts import UTF8_MARK, Text, Texts

UTF16_MARKS = (b"\xff\xfe", b"\xfe\xff")
SAVE_AS = "save it as UTF-8 without a byte order mark"
QUOTES = b'"|\xe2\x80[\x98-\x9f]|\xc2\xab|\xc2\xbb'
SEPARATORS = [bytes([letter]) for letter in b" \t\r\n(),="]
REST = re.compile(rb"[^ \t\r\n(),=]*")
# What stands there, what is said of it, and whether it counts in texts that aren't UTF-8 alone.
SIGNS = [
    (
        rb"\xc2\xa0|\xe2\x80\xaf|\xe2\x80\x87",
        "a no-break space, which is part of a word and divides none; put a blank in its place",
        False,
    ),
    (rb"\xa0", "a no-break space (byte A0), which is part of a word and divides none; put a blank in its place", True),
    (
        rb"\xe2\x80[\x80-\x86\x88-\x8b]|\xe3\x80\x80|\xef\xbb\xbf",
        "a space that is part of a word and divides none; put a blank in its place",
        False,
    ),
    (
        rb"(?:(?<=[ \t\r\n(),=])|^)(?:" + QUOTES + rb")|(?:" + QUOTES + rb")(?=[ \t\r\n(),=]|$)",
        "a quote, which is part of the word; take the quotes away",
        False,
    ),
    (rb";", "a semicolon, which is part of a word and divides none; put a blank in its place", False),
    # (what is found first, a pair, has no group, and is none)
    (
        rb"\([^()\n]{0,40}\)|(,)",
        "a comma, which stands in pairs alone, as (2,5), and divides no words; put a blank in its place",
        False,
    ),
]
# How files begin that are no texts, with what they are.
KINDS = {
    b"PK\x03\x04": "a ZIP archive, as .xlsx, .ods and .docx are",
    b"\xd0\xcf\x11\xe0": "an old .xls or .doc",
    b"%PDF": "a PDF",
    b"\x89PNG": "a picture",
    b"\xff\xd8\xff": "a picture",
    b"<": "XML or HTML",
    b"{": "JSON",
    b"[": "JSON",
    b"\x7fELF": "a program",
}


def is_utf8(data: bytes) -> bool:
    try:
        data.decode()
        return True
    except UnicodeDecodeError:
        return False


def is_utf16(data: bytes) -> bool:
    """Whether the file has a mark of UTF-16, or zeros for every other byte."""
    halves = [data[at::2] for at in (0, 1)]
    least, most = sorted(half.count(0) / max(1, len(half)) for half in halves)
    return data.startswith(UTF16_MARKS) or least < 0.05 and most > 0.5


def whole_file(text: Text) -> str:
    """What is wrong with all of a file, if anything."""
    if not text.data:
        return "the file is empty (0 bytes)"
    if not text.data.strip():
        return "the file has blanks and line ends alone"
    begin = text.data.removeprefix(UTF8_MARK).lstrip()
    kind = next((name for first, name in KINDS.items() if begin.startswith(first)), "")
    if kind:
        return f"the file is {kind}; give it as plain text, whose words docs/COMMANDS.md has under 'The input'"
    if begin_of(text):
        return (
            "the file is a table as 'desk csv' writes it; such a one is taken instead of all solutions, after a scenario, a"
            " history and week data in which nothing is wrong"
        )
    if is_utf16(text.data):
        return f"the file is UTF-16, of two bytes a letter; {SAVE_AS}"
    if text.data.count(b"\0") * 4 > len(text.data):
        return "the file is no text: many of its bytes are 00; give it as plain text"
    return ""


def names_in(data: bytes) -> set[bytes]:
    """The words that stand in the scenario and after it: what hides in one of them is part of a name."""
    head, _, rest = data.partition(b"HISTORY")
    return {*WORD.findall(head)} & {*WORD.findall(rest)}


def word_at(data: bytes, at: int) -> bytes:
    """The word to which a byte belongs, as far as it is within a thousand bytes."""
    before = max(data.rfind(separator, max(0, at - 1000), at) for separator in SEPARATORS)
    rest = REST.match(data, at, at + 1000)
    return data[max(before + 1, at - 1000) : rest.end() if rest else at]


def signs_in(text: Text, names: set[bytes]) -> list[tuple[int, int, str]]:
    """The signs of a file that aren't part of names: from which byte, to which, and what is said."""
    found = []
    if text.data.startswith(UTF8_MARK):
        found.append((0, 3, f"the file begins with a byte order mark (bytes EF BB BF), which can't be seen; {SAVE_AS}"))
    plain = is_utf8(text.data)
    for pattern, message, is_of_bytes in SIGNS:
        if not (is_of_bytes and plain):
            signs = [match for match in re.finditer(pattern, text.data) if match.re.groups == 0 or match.lastindex]
            found += [(match.start(), match.end(), message) for match in signs if match.start() or match[0] != UTF8_MARK]
    return [sign for sign in found if word_at(text.data, sign[0]) not in names]


def causes(texts: Texts) -> tuple[list[Finding], bytes, bool, set[LineKey]]:
    """What is found; the joined text with blanks instead; whether every file can be read as a whole; and the lines in which something
    hides.

    A sign that stands several times in a file is reported once, with how many lines more have it.
    """
    found: list[Finding] = []
    hiding: set[LineKey] = set()
    names = names_in(texts.joined)
    cleaned, all_read = bytearray(texts.joined), True
    for number, (start, text) in enumerate(zip(texts.starts, texts.texts)):
        table = table_in(texts.texts[: number + 1])
        wrong = [(fault.cell.at, fault.cell.length, fault.message) for fault in table.wrong] if table else []
        of_whole = "" if wrong else whole_file(text)
        if wrong or of_whole:
            for at, length, message in wrong or [(0, 0, of_whole)]:
                found.append(Finding(start + at, texts.place(start + at, length), message))
            cleaned[start : start + len(text.data)] = b" " * len(text.data)
            all_read = False
            continue
        kinds: dict[str, list[tuple[int, int]]] = {}
        for first, last, message in signs_in(text, names):
            cleaned[start + first : start + last] = b" " * (last - first)
            kinds.setdefault(message, []).append((start + first, last - first))
        for message, signs in kinds.items():
            places = [texts.place(*sign) for sign in signs]
            found.append(Finding(signs[0][0], places[0], f"{message}{also(len({place.line for place in places}) - 1)}"))
            hiding.update((place.file, place.line) for place in places)
    return found, bytes(cleaned), all_read, hiding

"""The file of a ward: an SQLite database, and how it is made, opened, checked and locked.

A ward is one file: it has no write-ahead log, and what SQLite writes next to it is gone once a change is over. Each change is one
transaction, so that a process that is killed leaves what was there before, or all of the change.
"""
import collections.abc
import contextlib
import errno
import fcntl
import hashlib
import os
import struct
import time

from desk_lib.signals import held_back
from desk_lib.texts import DeskError, shown
from desk_lib.ward.naming import ENDING, MAGIC

try:
    import sqlite3
except ImportError:
    raise DeskError("this Python has no sqlite3, which a ward needs; start the desk with another python3", 3) from None

# How long the header of a database is; and what a ward has there: the application, and the version of its tables.
HEADER = 100
APPLICATION, FORMAT = int.from_bytes(b"Ward", "big"), 1
# What a ward ends with, after the pages of its database: this word, the change counter of the header, and the SHA-256 of all pages.
SEAL, PAGE = b"WardSeal", 4096
SEAL_LENGTH = len(SEAL) + 4 + 32
# How often a seal is read that may just be written, and for how long is waited meanwhile.
READS, PAUSE = 5, 0.05
# For how many seconds a command waits for another that changes the ward.
WAIT = 10.0
# The byte that SQLite locks while a transaction may write.
RESERVED_BYTE = 0x40000001
# The tables, as docs/WARD-FILE.md describes them.
SCHEMA = (
    "CREATE TABLE text (id INTEGER PRIMARY KEY, sha256 TEXT NOT NULL UNIQUE, bytes BLOB NOT NULL) STRICT",
    "CREATE TABLE input (id INTEGER PRIMARY KEY, start TEXT NOT NULL, scenario INTEGER NOT NULL REFERENCES text,"
    " history INTEGER NOT NULL REFERENCES text) STRICT",
    "CREATE TABLE week (input INTEGER NOT NULL REFERENCES input, number INTEGER NOT NULL,"
    " text INTEGER NOT NULL REFERENCES text, PRIMARY KEY (input, number)) STRICT",
    "CREATE TABLE shift (input INTEGER NOT NULL REFERENCES input, name BLOB NOT NULL, begins TEXT NOT NULL, ends TEXT NOT NULL,"
    " colour TEXT NOT NULL, PRIMARY KEY (input, name)) STRICT",
    "CREATE TABLE balance (input INTEGER NOT NULL REFERENCES input, nurse BLOB NOT NULL, months INTEGER NOT NULL,"
    " nights INTEGER NOT NULL, weekends INTEGER NOT NULL, unmet INTEGER NOT NULL, changes INTEGER NOT NULL,"
    " PRIMARY KEY (input, nurse)) STRICT",
    "CREATE TABLE ask (id INTEGER PRIMARY KEY, line BLOB NOT NULL, author TEXT NOT NULL, written TEXT NOT NULL) STRICT",
    "CREATE TABLE roster (id INTEGER PRIMARY KEY, text INTEGER NOT NULL REFERENCES text, penalty INTEGER, source TEXT NOT NULL,"
    " seed INTEGER, searches INTEGER, made TEXT NOT NULL) STRICT",
    "CREATE TABLE publication (id INTEGER PRIMARY KEY, roster INTEGER NOT NULL REFERENCES roster, days INTEGER NOT NULL,"
    " author TEXT NOT NULL, made TEXT NOT NULL) STRICT",
    "CREATE TABLE version (id INTEGER PRIMARY KEY, kind TEXT NOT NULL, state INTEGER NOT NULL REFERENCES version,"
    " input INTEGER NOT NULL REFERENCES input, roster INTEGER REFERENCES roster, publication INTEGER REFERENCES publication,"
    " note TEXT NOT NULL, author TEXT NOT NULL, made TEXT NOT NULL, sha256 TEXT NOT NULL) STRICT",
    "CREATE TABLE version_ask (version INTEGER NOT NULL REFERENCES version, ask INTEGER NOT NULL REFERENCES ask,"
    " PRIMARY KEY (version, ask)) STRICT",
    "CREATE TABLE candidate (state INTEGER NOT NULL REFERENCES version, number INTEGER NOT NULL,"
    " roster INTEGER NOT NULL REFERENCES roster, how TEXT NOT NULL, days INTEGER NOT NULL, skills INTEGER NOT NULL,"
    " nurses INTEGER NOT NULL, sha256 TEXT NOT NULL, PRIMARY KEY (state, number)) STRICT",
)


def damaged(name: str, what: str) -> DeskError:
    message = f"{shown(name)}: this ward is damaged ({what}), and nothing was done"
    return DeskError(f"{message}; take the last backup", 3)


def check_header(name: str) -> None:
    """Stops if a file is no ward, one of a later version, or damaged at its beginning."""
    try:
        with open(name, "rb") as file:
            header = file.read(HEADER)
    except IsADirectoryError:
        raise DeskError(f"{shown(name)}: this is a folder, and a ward is a file; give the name of a ward", 3) from None
    except FileNotFoundError:
        raise DeskError(f"{shown(name)}: there is no such ward; 'desk new' makes one", 3) from None
    except (OSError, ValueError) as why:
        reason = getattr(why, "strerror", None) or str(why)
        raise DeskError(f"{shown(name)}: read failed: {reason}; give the name of a ward that can be read", 3) from None
    application = int.from_bytes(header[68:72], "big")
    if len(header) < HEADER or not header.startswith(MAGIC) or application != APPLICATION:
        raise DeskError(f"{shown(name)}: this is no ward, or its beginning is damaged; 'desk new' makes a ward", 1)
    (version,) = struct.unpack(">I", header[60:64])
    if version > FORMAT:
        message = f"{shown(name)}: this ward is of format {version}, and this desk knows formats up to {FORMAT}"
        raise DeskError(f"{message}; take a newer desk. Nothing was done", 1)
    if version < 1 or header[16:20] != b"\x10\x00\x01\x01" or header[20:24] != b"\x00\x40\x20\x20":
        raise damaged(name, "in its header")


def connected(name: str, wait: float = WAIT) -> sqlite3.Connection:
    """The database of a file that is there."""
    path = os.path.abspath(name).replace("%", "%25").replace("?", "%3f").replace("#", "%23")
    connection = sqlite3.connect(f"file:{path}?mode=rw", uri=True, timeout=wait, isolation_level=None)
    for pragma in ("foreign_keys = ON", "synchronous = FULL", "trusted_schema = OFF", "cell_size_check = ON"):
        connection.execute(f"PRAGMA {pragma}")
    return connection


@contextlib.contextmanager
def errors_of(name: str) -> collections.abc.Iterator[None]:
    """Says in one line what SQLite can't do."""
    try:
        yield
    except sqlite3.Error as why:
        raise error_of(name, why) from None
    except UnicodeError:
        raise damaged(name, "a text in it is no UTF-8") from None


def error_of(name: str, why: sqlite3.Error) -> DeskError:
    """The line for an error of SQLite."""
    said = str(why)
    if "locked" in said or "busy" in said:
        who = at_work_on(name)
        message = f"{shown(name)}: {who or 'another command'} is at work on this ward, for longer than {WAIT:.0f} seconds"
        return DeskError(f"{message}; nothing was done. Try again later", 3)
    if "disk is full" in said:
        return DeskError(f"{shown(name)}: write failed: the disk is full; nothing was changed. Free some space on that disk", 3)
    if "readonly" in said or "read-only" in said or "unable to open" in said:
        message = f"{shown(name)}: this ward can't be written: {said}; nothing was changed"
        return DeskError(f"{message}. 'desk backup {shown(name)} FILE' makes a copy of your own", 3)
    if "disk I/O" in said:
        return DeskError(f"{shown(name)}: reading or writing failed: {said}; nothing was changed. Look at that disk", 3)
    return damaged(name, said)


def at_work_on(name: str) -> str:
    """The process that holds the lock of a ward, in words, if the system says which."""
    lock = struct.pack("hhqqi4x", fcntl.F_WRLCK, os.SEEK_SET, RESERVED_BYTE, 1, 0)
    try:
        with open(name, "r+b") as file:
            kind, *_, process = struct.unpack("hhqqi4x", fcntl.fcntl(file, fcntl.F_GETLK, lock))
        if kind == fcntl.F_UNLCK or process <= 0:
            return ""
        with open(f"/proc/{process}/cmdline", "rb") as file:
            words = file.read().rstrip(b"\0").split(b"\0")
    except (OSError, struct.error):
        return ""
    # (what stands before the desk's own words is how Python was started)
    at = next((at for at, word in enumerate(words) if word.endswith(b"desk_lib")), -1)
    command = shown(b" ".join([b"desk", *words[at + 1 :]]))[:80] if at >= 0 else shown(words[0])
    return f"'{command}' (process {process})"


def check_tables(name: str, connection: sqlite3.Connection) -> None:
    """Stops if the database isn't whole, or its tables are others."""
    found = [row[0] for row in connection.execute("PRAGMA integrity_check(1)")]
    if found != ["ok"]:
        raise damaged(name, str(found[0]).splitlines()[-1][:80] if found else "it has no tables")
    tables = {row[0] for row in connection.execute("SELECT sql FROM sqlite_schema WHERE sql IS NOT NULL")}
    if tables != {*SCHEMA}:
        raise damaged(name, "its tables are others")
    if connection.execute("PRAGMA foreign_key_check").fetchone():
        raise damaged(name, "a row refers to one that isn't there")


# ---- the seal: what a ward ends with


def seal_of(handle: int) -> tuple[int, bytes]:
    """Where the pages of a ward end, and the seal that is due there."""
    header = os.pread(handle, HEADER, 0)
    length = PAGE * int.from_bytes(header[28:32], "big")
    return length, SEAL + header[24:28] + hashlib.sha256(os.pread(handle, length, 0)).digest()


def check_seal(name: str, handle: int) -> None:
    """Stops if the pages aren't those that were sealed. A ward that was changed by another program, or by a command that was killed
    before it could seal it, has no seal of its change counter, and is looked through by SQLite and by the sums in it alone."""
    for _ in range(READS):
        length, due = seal_of(handle)
        found = os.pread(handle, SEAL_LENGTH + 1, length)
        is_of_now = len(found) == SEAL_LENGTH and found[: len(SEAL) + 4] == due[: len(SEAL) + 4]
        if not is_of_now or found == due:
            return
        time.sleep(PAUSE)
    raise damaged(name, "its bytes aren't those that were written")


def seal(connection: sqlite3.Connection, handle: int) -> None:
    """Seals a ward, while nobody else can change it. Without a seal it is whole, too."""
    with contextlib.suppress(sqlite3.OperationalError, OSError):
        connection.execute("BEGIN IMMEDIATE")
        try:
            # (SQLite takes its lock, and reads what the file has)
            connection.execute("SELECT count(*) FROM sqlite_schema").fetchone()
            length, due = seal_of(handle)
            # (the old one goes first: half of a new one in it would be neither)
            os.ftruncate(handle, length)
            os.fsync(handle)
            os.pwrite(handle, due, length)
            os.fsync(handle)
        finally:
            connection.execute("ROLLBACK")


@contextlib.contextmanager
def opened(name: str) -> collections.abc.Iterator[tuple[sqlite3.Connection, int]]:
    """The database of a ward, and the file itself. That is closed last: closing it gives up the locks of this process."""
    check_header(name)
    with errors_of(name), handle_of(name) as handle, contextlib.closing(connected(name)) as connection:
        yield connection, handle


@contextlib.contextmanager
def handle_of(name: str) -> collections.abc.Iterator[int]:
    """The file of a ward, to write its seal if that may be, else to read."""
    try:
        handle = os.open(name, os.O_RDWR | os.O_CLOEXEC)
    except OSError:
        handle = os.open(name, os.O_RDONLY | os.O_CLOEXEC)
    try:
        yield handle
    finally:
        os.close(handle)


@contextlib.contextmanager
def reading(name: str) -> collections.abc.Iterator[sqlite3.Connection]:
    """The database in a transaction that reads, whole and of this format."""
    with opened(name) as (connection, handle):
        connection.execute("BEGIN")
        check_tables(name, connection)
        check_seal(name, handle)
        yield connection


@contextlib.contextmanager
def writing(name: str) -> collections.abc.Iterator[sqlite3.Connection]:
    """The same in a transaction that writes, which nobody else does meanwhile. It is over at the end of the block; on an error
    nothing was changed."""
    with opened(name) as (connection, handle):
        connection.execute("BEGIN IMMEDIATE")
        try:
            check_tables(name, connection)
            check_seal(name, handle)
            yield connection
            with held_back():
                connection.execute("COMMIT")
                seal(connection, handle)
        finally:
            if connection.in_transaction:
                connection.execute("ROLLBACK")


def check_new(name: str, what: str) -> None:
    """Stops if a file of this name is there, or can't be made."""
    if os.path.lexists(name):
        raise DeskError(f"{shown(name)} is there; give the {what} another name", 2)
    folder = os.path.dirname(os.path.realpath(name))
    if not (os.path.isdir(folder) and os.access(folder, os.W_OK)):
        why = "isn't there" if not os.path.exists(folder) else "can't be written"
        raise DeskError(f"{shown(name)}: write failed: the folder {why}; give a name in a folder that can be written", 3)


@contextlib.contextmanager
def making(name: str) -> collections.abc.Iterator[sqlite3.Connection]:
    """A new database, which gets this name at the end of the block, if no file has it then."""
    temporary = os.path.join(os.path.dirname(os.path.realpath(name)), f".desk-{os.getpid()}{ENDING}")
    try:
        with errors_of(name), contextlib.closing(sqlite3.connect(temporary, isolation_level=None)) as connection:
            for pragma in ("page_size = 4096", "encoding = 'UTF-8'", "journal_mode = DELETE", "synchronous = FULL"):
                connection.execute(f"PRAGMA {pragma}")
            connection.execute(f"PRAGMA application_id = {APPLICATION}")
            connection.execute("PRAGMA foreign_keys = ON")
            connection.execute("BEGIN IMMEDIATE")
            for table in SCHEMA:
                connection.execute(table)
            connection.execute(f"PRAGMA user_version = {FORMAT}")
            yield connection
            connection.execute("COMMIT")
        seal_new(temporary)
        with held_back():
            put_new(temporary, name)
    finally:
        for left in (temporary, f"{temporary}-journal"):
            with contextlib.suppress(OSError):
                os.remove(left)


def seal_new(name: str) -> None:
    """Seals a file that nobody else has."""
    with handle_of(name) as handle:
        length, due = seal_of(handle)
        os.pwrite(handle, due, length)
        os.fsync(handle)


def put_new(temporary: str, name: str) -> None:
    """Gives a finished file its name, if no file has it."""
    try:
        os.link(temporary, name)
    except FileExistsError:
        raise DeskError(f"{shown(name)} is there; give the new ward another name", 2) from None
    except OSError as why:
        # (some file systems have no second names)
        if why.errno not in (errno.EPERM, errno.ENOTSUP):
            raise DeskError(
                f"{shown(name)}: write failed: {why.strerror}; give a name in a folder that can be written", 3
            ) from None
        os.rename(temporary, name)


def back_up(name: str, copy: str) -> None:
    """Writes a whole copy of a ward, whatever other commands do meanwhile."""
    check_new(copy, "backup")
    temporary = os.path.join(os.path.dirname(os.path.realpath(copy)), f".desk-{os.getpid()}-backup{ENDING}")
    try:
        with opened(name) as (connection, _):
            check_tables(name, connection)
            try:
                connection.execute("VACUUM INTO ?", (temporary,))
            except sqlite3.Error as why:
                raise error_of(copy, why) from None
        seal_new(temporary)
        with reading(temporary):
            pass
        with held_back():
            put_new(temporary, copy)
    finally:
        with contextlib.suppress(OSError):
            os.remove(temporary)

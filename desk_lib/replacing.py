"""Files that are replaced as a whole: written next to the old one, read back, and renamed. None is left half written."""
import collections.abc
import contextlib
import errno
import itertools
import os
import stat
import tempfile

from desk_lib.program import Program
from desk_lib.signals import held_back
from desk_lib.texts import DeskError, Text, Texts, shown

# What to do if a file can't be written, by the error; and for all others.
REMEDIES = dict.fromkeys((errno.ENOSPC, errno.EDQUOT), "free some space on that disk, or give a name on another")
REMEDY = "give a name in a folder that can be written"


def failed(name: str, why: OSError) -> DeskError:
    message = f"{shown(name)}: write failed: {why.strerror}; nothing was replaced"
    return DeskError(f"{message}; {REMEDIES.get(why.errno or 0, REMEDY)}", 3)


class Replacement:
    """A new text for a file, which lies in a temporary file next to it until it is put in its place. Used by `with`, it leaves no
    temporary file."""

    def __init__(self, name: str, data: bytes):
        # (if the name is a link, the file to which it leads is replaced)
        self.name, self.path, self.temporary = name, os.path.realpath(name), ""
        self.data = data

    def __enter__(self) -> "Replacement":
        try:
            with held_back():
                self.write()
        except OSError as why:
            self.__exit__()
            raise failed(self.name, why) from None
        except BaseException:
            self.__exit__()
            raise
        return self

    def __exit__(self, *_: object) -> None:
        if self.temporary:
            with contextlib.suppress(OSError):
                os.unlink(self.temporary)

    def write(self) -> None:
        """Writes the temporary file, with the mode and the owner of the old one."""
        old = self.old()
        handle, self.temporary = tempfile.mkstemp(prefix=".desk-", dir=os.path.dirname(self.path))
        with open(handle, "wb") as file:
            file.write(self.data)
            if old:
                self.keep_owner(file.fileno(), old)
            os.fchmod(file.fileno(), stat.S_IMODE(old.st_mode) if old else mode_of_new())
            file.flush()
            os.fsync(file.fileno())

    def old(self) -> os.stat_result | None:
        """What there is of the file, if anything. What may not be replaced is refused."""
        try:
            there = os.stat(self.path)
        except FileNotFoundError:
            return None
        if not stat.S_ISREG(there.st_mode):
            raise DeskError(f"{shown(self.name)}: no regular file; give the name of one, or of none", 3)
        if not there.st_mode & 0o222 or not os.access(self.path, os.W_OK):
            message = f"{shown(self.name)}: the file is write-protected, and isn't replaced"
            raise DeskError(f"{message}; give another name, or allow it by 'chmod u+w'", 3)
        return there

    def keep_owner(self, handle: int, old: os.stat_result) -> None:
        """Gives the new file to the owner of the old one. If that can't be, the old one stays."""
        new = os.fstat(handle)
        if (new.st_uid, new.st_gid) != (old.st_uid, old.st_gid):
            try:
                os.fchown(handle, old.st_uid, old.st_gid)
            except PermissionError:
                message = f"{shown(self.name)}: the file belongs to another user or group, and a new one would be yours"
                raise DeskError(f"{message}; give another name", 3) from None

    def read(self) -> bytes:
        """The bytes of the temporary file."""
        with open(self.temporary, "rb") as file:
            return file.read()

    def put(self) -> None:
        """Puts the new file in the place of the old one, at once."""
        try:
            os.replace(self.temporary, self.path)
        except OSError as why:
            raise failed(self.name, why) from None
        self.temporary = ""
        # (some file systems can't)
        with contextlib.suppress(OSError):
            sync(os.path.dirname(self.path))


def sync(folder: str) -> None:
    """Has the names of a folder written to the disk."""
    handle = os.open(folder, os.O_RDONLY)
    try:
        os.fsync(handle)
    finally:
        os.close(handle)


def mode_of_new() -> int:
    """The mode of a file that is new."""
    mask = os.umask(0)
    os.umask(mask)
    return 0o666 & ~mask


def bytes_of(name: str) -> bytes | None:
    """What a file has; None if it can't be read, or isn't there."""
    try:
        with open(name, "rb") as file:
            return file.read()
    except OSError:
        return None


def keep_next_to(name: str, data: bytes) -> str:
    """Writes a file next to one of this name, under a name that no file has, and returns that."""
    kept = next(kept for kept in (f"{name}.kept-{number}" for number in itertools.count(1)) if write_new(kept, data))
    return kept


def write_new(name: str, data: bytes) -> bool:
    """Writes a file that isn't there yet; says whether that is so."""
    try:
        with open(name, "xb") as file:
            file.write(data)
        return True
    except FileExistsError:
        return False
    except OSError as why:
        raise failed(name, why) from None


@contextlib.contextmanager
def read_back(
    roster: Program, texts: Texts, solutions: bytes, files: list[tuple[str, bytes]]
) -> collections.abc.Iterator[list[Replacement]]:
    """New files that hold the solutions, which the program wrote for the texts, once it has read all of them back to the same
    bytes. They lie in temporary files, and those that aren't put go."""
    with contextlib.ExitStack() as stack:
        new = [stack.enter_context(Replacement(name, data)) for name, data in files]
        back = Texts([*texts.texts, *(Text(file.name, file.read()) for file in new)])
        answer = roster.ask(["show"], back)
        if answer.output != solutions:
            raise DeskError(
                f"{shown(files[0][0])}: read back it is another roster; nothing is replaced. This is a fault of the desk", 3
            )
        yield new


def replace_text(name: str, data: bytes) -> None:
    """Writes a file that is no roster."""
    with Replacement(name, data) as new:
        new.put()

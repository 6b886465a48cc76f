"""How a word names a ward."""
import os

# How a database begins, and how the name of a ward ends.
MAGIC = b"SQLite format 3\0"
ENDING = ".ward"


def is_ward(name: str) -> bool:
    """Whether a word names a ward: by the name's ending, or by how the file begins."""
    if name.endswith(ENDING):
        return True
    try:
        if not os.path.isfile(name):
            return False
        with open(name, "rb") as file:
            return file.read(len(MAGIC)) == MAGIC
    except (OSError, ValueError):
        return False

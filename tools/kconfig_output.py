"""The folder that tools/expand_kconfig.py writes: which files are its own there, and the rule by which make writes it.

A file with the same text as before is left alone, so that its time says when its text changed.
"""

from __future__ import annotations

import re
from pathlib import Path, PurePosixPath
from typing import Iterable

LIST = ".expanded"  # the file in the folder that has the paths of those that were written there


def can_be_written(folder: Path) -> bool:
    """Whether a folder is not there, is empty, or has what an earlier run wrote."""
    return not folder.exists() or folder.is_dir() and ((folder / LIST).is_file() or not any(folder.iterdir()))


def write_text(path: Path, text: str) -> None:
    """Writes a file, unless it has the text already."""
    data = text.encode()
    if not (path.is_file() and path.read_bytes() == data):
        path.write_bytes(data)


def write_tree(folder: Path, files: dict[str, str]) -> None:
    """Writes files into a folder, and removes those that an earlier run wrote and this one does not.

    The list is written first with all of both, so that the next run knows what an interrupted one left.
    """
    folder.mkdir(parents=True, exist_ok=True)
    listed = folder / LIST
    before = listed.read_text(encoding="utf-8").splitlines() if listed.is_file() else []
    gone = [path for path in before if path not in files and is_inside(path)]
    listed.write_text("".join(path + "\n" for path in [*files, *gone]), encoding="utf-8")
    for path in gone:
        (folder / path).unlink(missing_ok=True)
    for path, text in files.items():
        (folder / path).parent.mkdir(parents=True, exist_ok=True)
        write_text(folder / path, text)
    listed.write_text("".join(path + "\n" for path in files), encoding="utf-8")


def is_inside(path: str) -> bool:
    return not path.startswith("/") and ".." not in PurePosixPath(path).parts


def rule(folder: Path, read: Iterable[Path]) -> str:
    """A rule for make: the list in the folder depends on the files that were read. One that is gone is no error."""
    names = [escaped(str(path)) for path in read]
    depends = "".join(f" \\\n    {name}" for name in names)
    return f"{escaped(str(folder / LIST))}:{depends}\n\n" + "".join(f"{name}:\n" for name in names)


def escaped(path: str) -> str:
    """A path as make reads it in a rule."""
    return re.sub(r"([ #:%])", r"\\\1", path.replace("$", "$$"))

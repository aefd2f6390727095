"""Writes files of a folder that is in use."""
import os
import pathlib
import tempfile


def replace(file, data, mode=0o644):
    """Writes a file under another name in its folder, and renames it. So an older file stays whole until then, whoever has it
    open keeps it, and of a link the target stays as it is. Returns the file."""
    file.parent.mkdir(parents=True, exist_ok=True)
    number, name = tempfile.mkstemp(prefix=f".{file.name}.", dir=file.parent)
    try:
        with open(number, "wb") as new:
            new.write(data)
            os.fchmod(number, mode)
        os.replace(name, file)
    finally:
        pathlib.Path(name).unlink(missing_ok=True)
    return file

"""What the tools keep on this machine: verdicts, each under a checksum of all that it depends on.

They stand in the user's cache folder (`XDG_CACHE_HOME`, or `~/.cache`), never in the repository. A verdict is taken only
if the toolchain, the scripts, the crates' sources and what the caller names besides are the same, byte for byte.
"""
import hashlib
import os
import pathlib
import subprocess

import rattle


def room():
    """Returns the folder of the verdicts."""
    return pathlib.Path(os.environ.get("XDG_CACHE_HOME") or pathlib.Path.home() / ".cache") / "miniserde-gate"


def toolchain():
    return subprocess.run(["rt", "version"], capture_output=True, check=True).stdout


class Keeper:
    """Keeps the verdicts of one script. `files` are the script and what it reads; nothing is taken if `anew`."""

    def __init__(self, files, anew=False, version=None):
        own = [pathlib.Path(__file__), pathlib.Path(rattle.__file__), *map(pathlib.Path, files)]
        self.anew, self.digests = anew, {}
        self.common = checksum([toolchain() if version is None else version, *(file.read_bytes() for file in own)])

    def digest(self, crate):
        """Returns the checksum of a crate and of the libraries below it."""
        if crate.name not in self.digests:
            parts = [crate.name.encode(), " ".join([*(it.name for it in crate.libraries), *crate.of_kit]).encode()]
            for file in sorted(crate.sources()):
                parts += [str(file.relative_to(crate.folder)).encode(), file.read_bytes()]
            self.digests[crate.name] = checksum([*parts, *(self.digest(it) for it in crate.libraries)])
        return self.digests[crate.name]

    def key(self, crates, *parts):
        """Returns the key of a verdict that depends on these crates, on those below them, and on these bytes."""
        return checksum([self.common, *(self.digest(it) for it in crates), *parts]).hex()

    def taken(self, key):
        """Returns the verdict that was kept under a key, if any is."""
        file = room() / key
        return None if self.anew or not file.is_file() else file.read_text()

    def keep(self, key, verdict):
        """Keeps a verdict, whole or not at all."""
        room().mkdir(parents=True, exist_ok=True)
        part = room() / f"{key}.{os.getpid()}"
        part.write_text(verdict)
        part.replace(room() / key)


def checksum(parts):
    """Returns the checksum of a list of bytes, each with its length."""
    found = hashlib.sha256()
    for part in parts:
        found.update(len(part).to_bytes(8, "big") + part)
    return found.digest()

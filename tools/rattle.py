"""What the tools share: the crates of this repository, and how `rattle` checks one over built libraries."""
import functools
import pathlib
import re
import shutil
import subprocess
import sys

ROOT = pathlib.Path(__file__).resolve().parent.parent


@functools.cache
def kit():
    """Returns the toolchain's folder, and ends the run if there is none."""
    try:
        told = subprocess.run(["rt", "doc"], capture_output=True, text=True, check=True).stdout
    except (OSError, subprocess.CalledProcessError):
        sys.exit("rt, Rattle's toolchain, is not on PATH")
    return pathlib.Path(told.strip()).parent


class Crate:
    """A crate, with the repository's libraries and the toolchain's that it lists."""

    def __init__(self, name, libraries, of_kit):
        self.name, self.libraries, self.of_kit = name, libraries, of_kit
        self.folder = ROOT / "crates" / name
        self.rlib = self.folder / f"out/rlib/{name}.rlib"
        self.is_program = (self.folder / "src/main.rt").is_file()

    def below(self):
        """Returns the repository's libraries below the crate, each after those that it uses."""
        found = []
        for library in self.libraries:
            found += [it for it in [*library.below(), library] if it not in found]
        return found

    def has_tests(self):
        return any("#[test]" in file.read_text() for file in self.folder.glob("src/**/*.rt"))

    def wrong_bodies(self):
        return sorted(it for it in self.folder.glob("wrong-bodies/*") if it.suffix in (".edit", ".harmless"))

    def check(self, *flags, tests=False):
        """Returns the command that checks the crate, with the libraries below it as they are built."""
        words = [f"{kit()}/bin/rattle", "check", "--crate-name", self.name, f"src/{'main' if self.is_program else 'lib'}.rt"]
        for name in ["std", *self.of_kit]:
            words += ["--extern", f"{name}={kit()}/rlibs/{name}.rlib"]
        words += ["-L", f"dependency={kit()}/rlibs"]
        for library in self.libraries:
            words += ["--extern", f"{library.name}={library.rlib}"]
        for library in self.below():
            words += ["-L", f"dependency={library.rlib.parent}"]
        words += ["--antt-project", f"{kit()}/rattle/logic/antt-project.json", "--logic-built", f"{kit()}/logic_built"]
        return [*words, "--jobs", "1", "--links", f"{self.name}=", *["--test"] * tests, *flags]

    def sources(self):
        return [file for part in ("src", "specs", "proofs") for file in self.folder.glob(f"{part}/**/*") if file.is_file()]

    def size(self):
        """Returns the bytes of the crate's sources and proofs."""
        return sum(file.stat().st_size for file in self.sources())

    def is_built(self):
        """Whether the crate's library was built after its sources, and after the libraries below it."""
        if not (self.rlib / "format").is_file():
            return False
        built = (self.rlib / "format").stat().st_mtime
        below = [(it.rlib / "format").stat().st_mtime for it in self.libraries if (it.rlib / "format").is_file()]
        return built >= max([*(file.stat().st_mtime for file in self.sources()), *below])

    def build(self):
        """Builds the crate's library, and ends the run if it cannot be built."""
        if subprocess.run(["rt", "lib"], cwd=self.folder, stdout=subprocess.DEVNULL).returncode:
            sys.exit(f"{self.name} was not built: `rt lib` in its folder says why")

    def build_again(self):
        """Builds the crate's library from nothing."""
        shutil.rmtree(self.folder / "out", ignore_errors=True)
        self.build()

    def build_below(self):
        """Builds the libraries below the crate that no gate and no check has left behind."""
        for library in self.below():
            if not library.is_built():
                library.build()

    def program(self, suffix=""):
        """Returns the crate's program, or with `_tests` that of its tests; ends the run if it is older than its sources.

        Times tell: `rt ci` writes each program anew in every run, one that it kept from an earlier run too.
        """
        path = self.folder / f"out/{self.name}{suffix}"
        if not path.is_file():
            sys.exit(f"{path.relative_to(ROOT)} is missing: run `rt ci`, which builds it")
        newest = max((file for it in [*self.below(), self] for file in it.sources()), key=lambda file: file.stat().st_mtime)
        if newest.stat().st_mtime >= path.stat().st_mtime:
            sys.exit(f"{path.relative_to(ROOT)} is older than {newest.relative_to(ROOT)}: run `rt ci`, which builds it anew")
        return path


def memory_left():
    """Returns the bytes of memory that new processes may take."""
    return int(re.search(r"MemAvailable: *(\d+)", pathlib.Path("/proc/meminfo").read_text())[1]) * 1024


def crates():
    """Returns the crates of crates.txt by name."""
    lines = re.findall(r"^(\w+)[^:#\n]*:([^#\n]*)", (ROOT / "crates.txt").read_text(), re.M)
    listed = {name: words.split() for name, words in lines}
    found = {}

    def made(name, above=()):
        if name in above:
            sys.exit(f"crates.txt: {' uses '.join([*above[above.index(name):], name])}, a circle")
        if name not in found:
            own = [made(it, (*above, name)) for it in listed[name] if it in listed]
            found[name] = Crate(name, own, [it for it in listed[name] if it not in listed])
        return found[name]

    for name in listed:
        made(name)
    return found

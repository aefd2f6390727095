"""Tests of ./install, by what another install has left: over running programs and links, that fail half way, and by another user.

    ffi/tests/install_cases.py PREFIX    PREFIX is what ./install made; the library and canon are built in this clone
"""
import importlib.machinery
import importlib.util
import os
import pathlib
import resource
import shutil
import subprocess
import sys
import tempfile
import traceback
import unittest

ROOT = pathlib.Path(__file__).resolve().parents[2]
NEEDED = ("install", "ffi", "tools/rattle.py", "tools/replaced.py", "crates.txt", "docs/FROM-ANY-LANGUAGE.md", "docs/CANON.md", "LICENSE-APACHE", "LICENSE-MIT",
          "crates/miniserde_c/src/lib.rt", "crates/grammar_table/data/table.txt")
BUILT = ("crates/miniserde_c/out/libminiserde_c.a", "crates/canon/out/canon.o")
NOBODY = 65534
# Loads the library, says so, waits for a line, and calls it.
CALLER = """import ctypes, sys
library = ctypes.CDLL(sys.argv[1])
print("loaded", flush=True)
sys.stdin.readline()
print(library.miniserde_is_json(b"[1, 2]", ctypes.c_size_t(6)))
"""


def loaded(clone):
    """Returns the script of a clone as a module."""
    loader = importlib.machinery.SourceFileLoader("install_of_clone", str(clone / "install"))
    module = importlib.util.module_from_spec(importlib.util.spec_from_loader(loader.name, loader))
    loader.exec_module(module)
    return module


def in_child(work, said):
    """Runs a function in a child of this process, with its output in a file. Returns its status and the output."""
    child = os.fork()
    if child == 0:
        status = 70
        try:
            file = os.open(said, os.O_WRONLY | os.O_CREAT | os.O_TRUNC)
            os.dup2(file, 1), os.dup2(file, 2)
            status = work()
        except SystemExit as error:
            print(error.code)
            status = error.code if isinstance(error.code, int) else 1
        except BaseException:
            traceback.print_exc(file=sys.stdout)
        finally:
            sys.stdout.flush()
            os._exit(status)
    status = os.waitstatus_to_exitcode(os.waitpid(child, 0)[1])
    return status, pathlib.Path(said).read_text()


def contents(folder):
    """Returns the bytes of each file of a folder, and where each link leads."""
    paths = [it for it in folder.rglob("*") if it.is_symlink() or it.is_file()]
    return {str(it.relative_to(folder)): os.readlink(it) if it.is_symlink() else it.read_bytes() for it in paths}


class Installs(unittest.TestCase):
    def setUp(self):
        os.umask(0o022)
        self.room = pathlib.Path(tempfile.mkdtemp(prefix="install-"))
        self.addCleanup(shutil.rmtree, self.room)
        self.room.chmod(0o755)
        self.clone, self.built, self.prefix = self.room / "a clone, and more", self.room / "built", self.room / "in a folder"
        for name in NEEDED:
            (self.clone / name).parent.mkdir(parents=True, exist_ok=True)
            (shutil.copytree if (ROOT / name).is_dir() else shutil.copy)(ROOT / name, self.clone / name)
        for name, source in (("libminiserde.so", "lib/libminiserde.so"), ("libminiserde.a", "lib/libminiserde.a"), ("canon", "bin/canon")):
            self.built.mkdir(exist_ok=True)
            shutil.copy(PREFIX / source, self.built / name)
        shutil.copytree(PREFIX / "share/miniserde/relink", self.built / "relink")
        self.script = loaded(self.clone)
        self.script.lacking = lambda target: []
        self.script.build_library = lambda room, is_built: shutil.copytree(self.built, room, dirs_exist_ok=True)
        self.script.build_program = lambda room, is_built: None

    def install(self, *words, before=lambda: None):
        def work():
            before()
            return self.script.main([*map(str, words)])

        return in_child(work, self.room / "said")

    def another_build(self):
        """Changes each file that is built."""
        for file in (it for it in self.built.rglob("*") if it.is_file()):
            file.write_bytes(b"another " + file.read_bytes()[:1000])

    def test_over_running_programs(self):
        self.assertEqual(self.install(self.prefix)[0], 0)
        pipes = {"stdin": subprocess.PIPE, "stdout": subprocess.PIPE, "text": True}
        canon = subprocess.Popen([self.prefix / "bin/canon"], **pipes)
        caller = subprocess.Popen([sys.executable, "-c", CALLER, self.prefix / "lib/libminiserde.so"], **pipes)
        self.assertEqual(caller.stdout.readline(), "loaded\n")
        self.another_build()
        status, said = self.install(self.prefix)
        self.assertEqual((canon.communicate("[1, 2]")[0], caller.communicate("\n")[0]), ("[1,2]", "0\n"))
        self.assertEqual(status, 0, said)
        for name, source in (("lib/libminiserde.so", "libminiserde.so"), ("lib/libminiserde.a", "libminiserde.a"), ("bin/canon", "canon")):
            self.assertEqual((self.prefix / name).read_bytes(), (self.built / source).read_bytes())

    def test_over_links(self):
        names = ("include/miniserde.h", f"lib/libminiserde.so.{self.script.VERSION}", "bin/canon", "share/doc/miniserde/LICENSES")
        for name in names:
            (self.prefix / name).parent.mkdir(parents=True, exist_ok=True)
            (self.room / name.replace("/", "-")).write_text("of another")
            (self.prefix / name).symlink_to(self.room / name.replace("/", "-"))
        self.assertEqual(self.install(self.prefix)[0], 0)
        for name in names:
            self.assertEqual((self.room / name.replace("/", "-")).read_text(), "of another")
            self.assertFalse((self.prefix / name).is_symlink(), name)

    def test_half_way(self):
        self.assertEqual(self.install(self.prefix)[0], 0)
        old = contents(self.prefix)
        sizes = sorted({it.stat().st_size for it in self.built.rglob("*") if it.is_file()})
        for file in (it for it in self.built.rglob("*") if it.is_file()):
            file.write_bytes(file.read_bytes() + b"x")
        self.assertEqual(self.install(self.room / "new")[0], 0)
        new = contents(self.room / "new")
        for size in (0, *sizes):
            status, said = self.install(self.prefix, before=lambda: resource.setrlimit(resource.RLIMIT_FSIZE, (max(size, 4000), size + 4000)))
            self.judge(status, said, old, new)
        (self.prefix / "include/miniserde.h").unlink()
        (self.prefix / "include/miniserde.h").mkdir()
        self.judge(*self.install(self.prefix), old, new)

    def judge(self, status, said, old, new):
        """Asks that an install failed and says so, and that each file is the old or the new one."""
        self.assertEqual(status, 1, said)
        self.assertIn("install: failed: ", said)
        for name, content in contents(self.prefix).items():
            self.assertIn(content, (old.get(name), new.get(name)), name)

    def judge_modes(self, folder, owner):
        for path in [folder, *folder.rglob("*")]:
            found = path.lstat()
            is_run = path.is_dir() or path.name in ("canon", "relink") or ".so." in path.name
            if not path.is_symlink():
                self.assertEqual((oct(found.st_mode & 0o777), found.st_uid), (oct(0o755 if is_run else 0o644), owner), path)

    def test_modes(self):
        target = self.room / "stage" / str(self.prefix).lstrip("/")
        status, said = self.install(self.prefix, before=lambda: (os.umask(0o077), os.environ.update(DESTDIR=str(self.room / "stage"))))
        self.assertEqual(status, 0, said)
        self.judge_modes(target, os.getuid())

    def test_by_another_user(self):
        if os.getuid() != 0:
            self.skipTest("it takes root")
        if not all(it.stat().st_mode & 1 for it in self.room.parents):
            self.skipTest(f"another user cannot enter {self.room}")
        place = self.room / "of another"
        place.mkdir()
        os.chown(place, NOBODY, NOBODY)
        become = lambda: (os.setgroups([]), os.setgid(NOBODY), os.setuid(NOBODY), os.umask(0o077), setattr(tempfile, "tempdir", str(place)))
        for _ in range(2):
            status, said = self.install(place / "prefix", before=become)
            self.assertEqual(status, 0, said)
        self.judge_modes(place / "prefix", NOBODY)

    def test_words(self):
        for words in ((), ("",), ("--prefix=",), ("--prefix", "x"), ("-x",), ("--wheel",), ("--wheel", "-x"), ("x", "y")):
            self.assertEqual(self.install(*words)[0], 2, words)
        self.assertEqual(self.install(f"--prefix={self.prefix}")[0], 0)
        self.assertTrue((self.prefix / "bin/canon").exists())

    def test_the_list_of_files(self):
        self.assertEqual(self.install(self.prefix)[0], 0)
        listed = (self.prefix / "share/miniserde/FILES").read_text().splitlines()
        self.assertEqual(sorted(listed), sorted(contents(self.prefix)))
        subprocess.run(["sh", "-c", r"xargs -d '\n' rm <share/miniserde/FILES"], cwd=self.prefix, check=True)
        self.assertEqual(contents(self.prefix), {})

    def test_a_comma_in_the_path_of_the_clone_and_what_is_printed(self):
        whole = loaded(self.clone)
        whole.build_archive, whole.build_main = (lambda is_built: ROOT / BUILT[0]), (lambda is_built: ROOT / BUILT[1])
        status, said = in_child(lambda: whole.main([str(self.prefix)]), self.room / "said")
        self.assertEqual(status, 0, said)
        shutil.copy(ROOT / "ffi/examples/canonical.c", self.room / "program.c")
        (self.room / "document.json").write_text("[1, 2]")
        lines = [it.split(maxsplit=1)[1] for it in said.splitlines() if it.startswith(("  shell", "  C "))]
        script = f"set -e\n{lines[0]}\n{lines[1]}\nLD_LIBRARY_PATH='{self.prefix}/lib' ./a.out <document.json"
        done = subprocess.run(["bash", "-c", script], cwd=self.room, capture_output=True, text=True)
        self.assertEqual((done.returncode, done.stdout), (0, "[1,2][1,2]"), done.stderr)


if __name__ == "__main__":
    PREFIX = pathlib.Path(sys.argv.pop())
    unittest.main()

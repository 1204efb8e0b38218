"""The program that `./urweb` runs: the one whose sums bin/sources.sum has; what differs is not run. Shown in a folder that is laid out like the repository."""
import hashlib
import os
import shutil
import subprocess
import tempfile
import unittest
from pathlib import Path

import context
from runs import SECONDS

PROGRAM = '#!/bin/sh\n[ "$1" = status ] && exit "$2"\necho "ran $*"\n'
SOURCE = "crates/urweb/src/main.rt"
TOOLS = ("bash", "readlink", "find", "sha256sum", "cut", "awk", "sed", "sort", "xargs", "sh", "mkdir", "env", "git", "cat", "cmp", "kill", "setpriv", "touch")


class Shipped(unittest.TestCase):
    def setUp(self) -> None:
        self.folder = tempfile.TemporaryDirectory()
        self.addCleanup(self.folder.cleanup)
        self.top = Path(self.folder.name) / "a folder"
        for name in ("bin", "tools/gate", "crates/urweb/src", "crates/low/specs", "crates/other/src"):
            (self.top / name).mkdir(parents=True)
        for name in ("urweb", "tools/gate/sources-sum"):
            shutil.copy2(context.TOP / name, self.top / name)
        shutil.copytree(context.TOP / "companion", self.top / "companion", ignore=shutil.ignore_patterns("__pycache__"))
        (self.top / "crates.txt").write_text("low: # the lowest\nurweb: low\nother: low\n")
        (self.top / SOURCE).write_text("fn main() {}\n")
        (self.top / "crates/low/specs/Low.antt").write_text("low = 1\n")
        self.write_program(PROGRAM)
        self.release()

    def write_program(self, text: str) -> None:
        path = self.top / "bin" / "urweb"
        path.write_text(text)
        path.chmod(0o755)

    def release(self) -> None:
        sources = subprocess.run([self.top / "tools/gate/sources-sum"], capture_output=True, text=True, check=True).stdout.strip()
        program = hashlib.sha256((self.top / "bin/urweb").read_bytes()).hexdigest()
        (self.top / "bin/sources.sum").write_text(f"{sources}\na kit\n{program}\n")

    def run_it(self, *words: str, script: Path | None = None, without: tuple[str, ...] = ("rt",), **more: str) -> subprocess.CompletedProcess[str]:
        """Runs the script with the tools that it needs alone on its path."""
        path = Path(self.folder.name) / "path"
        path.mkdir(exist_ok=True)
        for name in (*TOOLS, "python3"):
            found = shutil.which(name, path="/usr/bin:/bin") or shutil.which(name)
            link = path / name
            if found and name not in without and not link.exists():
                link.symlink_to(found)
            if name in without and link.exists():
                link.unlink()
        words_ = [str(script or self.top / "urweb"), *words]
        return subprocess.run(words_, capture_output=True, text=True, env={"PATH": str(path), "HOME": self.folder.name, **more}, timeout=SECONDS)

    def assert_not_run(self, *said: str) -> None:
        ran = self.run_it("check", "x")
        self.assertEqual((ran.returncode, ran.stdout), (126, ""))
        for text in said:
            self.assertIn(text, ran.stderr)
        self.assertNotIn("hours", ran.stderr)

    def test_it_runs_and_its_status_comes_back(self) -> None:
        for _ in range(2):
            self.assertEqual(self.run_it("check", "x").stdout, "ran check x\n")
        self.assertEqual(self.run_it("status", "5").returncode, 5)

    def test_it_runs_by_a_symbolic_link(self) -> None:
        link = Path(self.folder.name) / "link"
        link.symlink_to(self.top / "urweb")
        self.assertEqual(self.run_it("check", "x", script=link).stdout, "ran check x\n")

    def test_without_python_it_runs_and_says_nothing(self) -> None:
        ran = self.run_it("status", "1", without=("rt", "python3"))
        self.assertEqual((ran.returncode, ran.stdout, ran.stderr), (1, "", ""))
        self.assertEqual(self.run_it("new", "x", without=("rt", "python3")).returncode, 127)

    def test_another_program_is_not_run(self) -> None:
        self.run_it("check", "x")
        self.write_program("#!/bin/sh\necho other\n")
        self.assert_not_run("bin/urweb is not the program whose sum bin/sources.sum has", "`git checkout -- bin` brings back")

    def test_another_program_with_the_old_time_is_not_run(self) -> None:
        path = self.top / "bin/urweb"
        self.run_it("check", "x")
        old = path.stat()
        self.write_program(PROGRAM.replace("ran", "RAN"))
        os.utime(path, ns=(old.st_atime_ns, old.st_mtime_ns))
        self.assertEqual(path.stat().st_size, old.st_size)
        self.assert_not_run("bin/urweb is not the program whose sum bin/sources.sum has")

    def test_a_program_that_is_not_there_is_not_run(self) -> None:
        (self.top / "bin/urweb").unlink()
        self.assert_not_run("bin/urweb is not the program whose sum bin/sources.sum has")

    def test_sums_without_the_program_are_not_enough(self) -> None:
        path = self.top / "bin/sources.sum"
        path.write_text("\n".join(path.read_text().splitlines()[:2]) + "\n")
        self.assert_not_run("bin/urweb is not the program whose sum bin/sources.sum has")

    def test_changed_sources_are_seen(self) -> None:
        self.run_it("check", "x")
        (self.top / SOURCE).write_text("fn main() { other }\n")
        self.assert_not_run("the sources are not those that bin/urweb was built from", "no kit (`rt`)", "take bin/, crates/ and crates.txt anew")

    def test_a_source_that_is_changed_with_an_old_time_is_seen(self) -> None:
        path = self.top / SOURCE
        self.run_it("check", "x")
        old = path.stat()
        path.write_text("fn niam() {}\n")
        os.utime(path, ns=(old.st_atime_ns, old.st_mtime_ns))
        self.assert_not_run("the sources are not those that bin/urweb was built from")

    def test_a_source_of_a_crate_below_and_a_new_one_are_seen(self) -> None:
        low = self.top / "crates/low/specs/Low.antt"
        text = low.read_text()
        low.write_text("low = 2\n")
        self.assert_not_run("the sources are not those")
        low.write_text(text)
        self.assertEqual(self.run_it("check", "x").stdout, "ran check x\n")
        (self.top / "crates/urweb/src/more.rt").write_text("")
        self.assert_not_run("the sources are not those")

    def test_other_crates_are_no_sources_of_it(self) -> None:
        (self.top / "crates/other/src/lib.rt").write_text("fn f() {}\n")
        self.assertEqual(self.run_it("check", "x").stdout, "ran check x\n")

    def test_with_git_the_way_back_is_told(self) -> None:
        for words in (["init", "-q"], ["add", "-A"], ["-c", "user.name=a", "-c", "user.email=a@b", "commit", "-qm", "a"]):
            subprocess.run(["git", *words], cwd=self.top, check=True, capture_output=True)
        (self.top / SOURCE).write_text("fn main() { other }\n")
        self.assert_not_run("`git status` shows what was changed", "has the sources of bin/urweb")

    def test_a_program_that_was_built_here_is_run(self) -> None:
        built = self.top / "crates/urweb/out/urweb"
        built.parent.mkdir()
        (self.top / SOURCE).write_text("fn main() { other }\n")
        built.write_text("#!/bin/sh\necho built\n")
        built.chmod(0o755)
        self.assertEqual(self.run_it("check", "x").stdout, "built\n")
        self.assertEqual(self.run_it("version", "--program").stdout, f"{built}\n")
        (self.top / SOURCE).write_text("fn main() { newer }\n")
        os.utime(self.top / SOURCE, (1, 1))
        self.assert_not_run("the sources are not those that bin/urweb was built from")

    def test_none_is_built_where_that_is_asked(self) -> None:
        self.run_it("check", "x")
        kit = Path(self.folder.name) / "path" / "rt"
        kit.write_text("#!/bin/sh\nexit 7\n")
        kit.chmod(0o755)
        (self.top / SOURCE).write_text("fn main() { other }\n")
        self.assertIn("hours", self.run_it("check", "x", without=()).stderr)
        ran = self.run_it("check", "x", without=(), URWEB_BUILD="no")
        self.assertEqual((ran.returncode, "URWEB_BUILD is no" in ran.stderr, "hours" in ran.stderr), (126, True, False))

    def test_version_says_that_none_may_be_run(self) -> None:
        self.assertIn(f"program  {self.top}/bin/urweb\n", self.run_it("version").stdout)
        self.write_program("#!/bin/sh\n")
        ran = self.run_it("version")
        self.assertEqual(ran.returncode, 1)
        self.assertIn("program  none may be run\n", ran.stdout)


class Sums(unittest.TestCase):
    def test_the_release_has_the_sum_of_its_program(self) -> None:
        lines = (context.TOP / "bin/sources.sum").read_text().splitlines()
        self.assertEqual(len(lines), 3)
        self.assertEqual(lines[2], hashlib.sha256((context.TOP / "bin/urweb").read_bytes()).hexdigest())


if __name__ == "__main__":
    unittest.main()

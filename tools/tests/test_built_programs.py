"""Tests that targets of make run the built programs that they get, and then neither prove nor build
any. The stand-ins are scripts that log their names and arguments."""
import os
import subprocess
import sys
import tempfile
import unittest
from pathlib import Path

sys.path.insert(0, str(Path(__file__).resolve().parent))
from programs import PROGRAM, TOP

VARIABLES = {"addr2line_live": "ADDR2LINE_LIVE", "measure": "MEASURE",
             "command_loop_tests": "TESTS"}


class BuiltPrograms(unittest.TestCase):
    def setUp(self):
        folder = tempfile.TemporaryDirectory()
        self.addCleanup(folder.cleanup)
        self.folder, self.log = Path(folder.name), Path(folder.name) / "log"
        self.log.touch()
        self.stand_in("rt", "exit 0")
        others = {name: text for name, text in os.environ.items()
                  if name not in VARIABLES.values() and not name.startswith("MAKE")}
        self.env = {**others, "PATH": f"{folder.name}:{others['PATH']}"}

    def stand_in(self, name, command):
        """Writes a script that logs its working directory, name and arguments before a command."""
        path = self.folder / name
        path.write_text(f'#!/bin/sh\necho "${{PWD##*/}}: {name} $*" >> "{self.log}"\n{command}\n')
        path.chmod(0o755)
        return path

    def run_with(self, *words, **variables):
        """Returns the exit status and standard error of a command, and the lines of the log."""
        env = {**self.env, **{name: str(path) for name, path in variables.items()}}
        done = subprocess.run(list(map(str, words)), cwd=TOP, env=env, capture_output=True,
                              text=True, check=False)
        return done.returncode, done.stderr, self.log.read_text().splitlines()

    def test_build_uses_a_built_program(self):
        for crate, variable in VARIABLES.items():
            given = {variable: self.stand_in("given", "exit 0")}
            found = self.run_with("tools/build.sh", crate, "stand_in.log", **given)
            self.assertEqual(found, (0, "", []), crate)

    def test_build_refuses_other_files(self):
        plain = self.folder / "plain"
        plain.touch()
        for crate, variable in VARIABLES.items():
            for path in (plain, self.folder, self.folder / "missing"):
                found = self.run_with("tools/build.sh", crate, "stand_in.log", **{variable: path})
                wanted = f"{variable}={path} is not an executable file\n"
                self.assertEqual(found, (1, wanted, []))

    def test_build_without_a_built_program(self):
        """A program runs once, tests run, and an empty variable is like none."""
        for crate, variable in VARIABLES.items():
            found = self.run_with("tools/build.sh", crate, "stand_in.log", **{variable: ""})
            self.assertEqual(found[:2], (0, ""))
        self.assertEqual(found[2], ["addr2line_live: rt run", "measure: rt run",
                                    "command_loop_tests: rt test"])

    def test_demo(self):
        """The demo looks for its addresses with one run, and prints the replies of another. The
        path is a variable of the environment, or an argument of make, relative to the folder."""
        given = self.stand_in("given", f'exec "{PROGRAM}" "$@"')
        wanted = [f"{TOP.name}: given -a -f -i -p -e", f"{TOP.name}: given -f -i -p"]
        argument = f"ADDR2LINE_LIVE={os.path.relpath(given, TOP)}"
        for words, variables in (([], {"ADDR2LINE_LIVE": given}), ([argument], {})):
            self.log.write_text("")
            status, _, log = self.run_with("make", "-s", "demo", *words, **variables)
            calls = [line.split(" out/demo")[0] for line in log]
            self.assertEqual((status, calls), (0, wanted), words)

    def test_hostile(self):
        """The target ends at the first failure, with what the program printed."""
        given = self.stand_in("given", "echo stand-in; exit 3")
        status, errors, log = self.run_with("tools/hostile.sh", 1, MEASURE=given)
        self.assertEqual((status, len(log)), (1, 1), log)
        self.assertRegex(log[0], r": given (lines|scopes|module) \S*out/hostile\.\w+/\w+$")
        self.assertIn("stand-in", errors)

    def test_paths_of_targets(self):
        """The commands have absolute paths."""
        for target, count in (("fuzz", 3), ("long-run", 1), ("memory", 1)):
            words = ["ADDR2LINE_LIVE=bin/program", "TESTS=bin/tests"]
            done = subprocess.run(["make", "-n", target, *words], cwd=TOP, env=self.env,
                                  capture_output=True, text=True, check=True)
            self.assertEqual(done.stdout.count(f".py {TOP}/bin/program "), count, target)
            self.assertNotRegex(done.stdout, r"\brt\b")
        self.assertIn(f" {TOP}/bin/tests ", done.stdout)


if __name__ == "__main__":
    unittest.main()

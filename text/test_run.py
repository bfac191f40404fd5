"""Tests of ./run itself, in a copy of it with a stand-in for rt, which 'builds' a program that only hands back what it is told to.

They are about when ./run builds, what it says where, and what it refuses. What the real program answers is in cases/.
"""

import os
import pathlib
import shutil
import subprocess
import sys
import tempfile
import unittest

from test_source import laid

ROOT = pathlib.Path(__file__).resolve().parent.parent
TOOLS = "sh cat cp dirname find mkdir readlink sha256sum sort uname".split()

# It eats standard input, as a prover may, notes that it was called and in which crate, and writes where answers would be mistaken for its
# own words. As rt does, it then runs what it built; it does not end with that one's status, which is 0 of the real one on an empty tape.
RT = """#!/bin/sh
cat >/dev/null
echo "$@" "${PWD##*/}" >>../../rt-calls
echo 'proved'
[ ! -e ../../rt-fails ] || exit 1
mkdir -p out && cp ../../program out/bench || exit 1
out/bench </dev/null || exit 0
"""
BEGIN = laid((0, b"\x01"))
BEGUN = laid((1, b"\x01"), (11, b"\x01"))


def script(path, text):
    path.write_text(text)
    path.chmod(0o755)


class Run(unittest.TestCase):
    def setUp(self):
        scratch = tempfile.TemporaryDirectory()
        self.addCleanup(scratch.cleanup)
        self.outside = pathlib.Path(scratch.name).resolve()
        self.top = self.outside / "a copy"
        self.tools = self.outside / "tools"
        for folder in self.top / "crates" / "bench", self.tools:
            folder.mkdir(parents=True)
        shutil.copy(ROOT / "run", self.top)
        for folder in "text", "samples":
            shutil.copytree(ROOT / folder, self.top / folder)
        (self.top / "crates.txt").write_text("bench:\n")
        (self.top / "crates" / "bench" / "main.rt").write_text("")
        script(self.top / "program", "#!/bin/sh\ncat\n")
        for tool in TOOLS:
            (self.tools / tool).symlink_to(shutil.which(tool))
        script(self.tools / "python3", f'#!/bin/sh\nexec "{sys.executable}" "$@"\n')
        script(self.tools / "rt", RT)

    def run_it(self, *arguments, given=b"", command=None, place=None):
        return subprocess.run(
            [command or self.top / "run", *arguments],
            input=given,
            cwd=place or self.outside,
            env={"PATH": str(self.tools), "PYTHONIOENCODING": "ascii"},
            capture_output=True,
            check=False,
        )

    def builds(self):
        calls = self.top / "rt-calls"
        return calls.read_text().splitlines() if calls.exists() else []

    def ends(self, ran, status, output, *said):
        self.assertEqual((ran.returncode, ran.stdout), (status, output), ran.stderr)
        for words in said:
            self.assertIn(words, ran.stderr.decode())
        if not said:
            self.assertEqual(ran.stderr, b"")

    def test_builds_once_and_again_after_a_change(self):
        tape = self.outside / "a tape"
        tape.write_bytes(b"as it is")
        self.ends(self.run_it("a tape"), 0, b"as it is", "run: building", "proved")
        self.assertEqual(self.builds(), ["run bench"])
        self.ends(self.run_it("a tape"), 0, b"as it is")
        source = self.top / "crates" / "bench" / "main.rt"
        source.touch()
        self.ends(self.run_it("a tape"), 0, b"as it is")
        program = self.top / "crates" / "bench" / "out" / "bench"
        for count, change in enumerate((
            lambda: source.write_text("changed"),
            lambda: (self.top / "crates.txt").write_text("bench: more\n"),
            lambda: source.rename(self.top / "crates" / "bench" / "other.rt"),
            lambda: script(program, "#!/bin/sh\necho another program\n"),
            program.unlink,
        ), 2):
            change()
            self.ends(self.run_it("a tape"), 0, b"as it is", "run: building")
            self.assertEqual(len(self.builds()), count)
            self.ends(self.run_it("a tape"), 0, b"as it is")

    def test_standard_input_is_the_tape_even_when_it_builds(self):
        self.ends(self.run_it("-", given=b"as it is"), 0, b"as it is", "run: building")
        self.ends(self.run_it("-", given=b"as it is"), 0, b"as it is")

    def test_any_working_directory_and_by_a_link(self):
        (self.outside / "link").symlink_to(self.top / "run")
        (self.top / "tape").write_bytes(b"as it is")
        self.ends(self.run_it("tape", place=self.top, command="./run"), 0, b"as it is", "run: building")
        self.ends(self.run_it("../tape", place=self.top / "crates", command="../run"), 0, b"as it is")
        self.ends(self.run_it(self.top / "tape", place="/", command=self.outside / "link"), 0, b"as it is")

    def test_a_build_that_fails_runs_nothing_and_is_tried_again(self):
        self.run_it("-")
        (self.top / "crates.txt").write_text("bench: more\n")
        (self.top / "rt-fails").touch()
        for _ in range(2):
            self.ends(self.run_it("-", given=b"x"), 1, b"", "run: the bench program was not built")
        self.ends(self.run_it("--text", "-", given=b"begin 0"), 1, b"", "not built", "run: no answers to show")
        self.assertEqual(len(self.builds()), 4)

    def test_a_build_without_a_program(self):
        script(self.tools / "rt", "#!/bin/sh\n")
        self.ends(self.run_it("-"), 1, b"", "run: rt has no more to do, and there is no crates/bench/out/bench: remove crates/bench/out/ and try again\n")

    def test_missing_commands(self):
        (self.tools / "rt").unlink()
        self.ends(self.run_it("-"), 2, b"", "run: the Rattle toolchain is missing: no command 'rt'")
        (self.tools / "python3").unlink()
        self.ends(self.run_it("--text", "-"), 2, b"", "run: Python 3 is missing: no command 'python3'")

    def test_wrong_calls(self):
        two = "a b|--text --tape|--words --text"
        more = "a b c|--text a b|--text a --words|--tape a --text|--tape --text a b"
        for call in f"--help a|--text|--words|--tape|{two}|{more}".split("|"):
            with self.subTest(call=call):
                self.ends(self.run_it(*call.split()), 2, b"", "usage: run ")
        self.ends(self.run_it(""), 2, b"", "usage: run ")
        self.ends(self.run_it("--text", ""), 2, b"", "usage: run ")
        self.assertEqual(self.builds(), [])

    def test_files_that_cannot_be_read(self):
        self.ends(self.run_it("missing"), 2, b"", "run: missing: no file that can be read\n")
        self.ends(self.run_it("/"), 2, b"", "run: /: no file that can be read\n")
        self.ends(self.run_it("--text", "missing"), 2, b"", "run: missing: No such file or directory\n")
        self.ends(self.run_it("--words", "/"), 2, b"", "run: /: Is a directory\n")
        self.assertEqual(self.builds(), [])

    def test_the_tape_of_a_text(self):
        (self.outside / "a text").write_bytes(b"# one\nbegin 0\n")
        self.ends(self.run_it("--text", "a text", "--tape"), 0, BEGIN)
        self.ends(self.run_it("--tape", "--text", "a text"), 0, BEGIN)
        self.ends(self.run_it("--tape", "--text", "-", given=b"begin 0\nraw 07"), 0, BEGIN + b"\x07")
        self.assertEqual(self.builds(), [])

    def test_a_text_with_faults_runs_nothing(self):
        (self.outside / "a text").write_bytes(b"begin 0\nbegin\n\nbegin 16\n")
        for more in (), ("--tape",):
            ran = self.run_it("--text", "a text", *more)
            self.ends(ran, 2, b"", "a text:2: it is written: begin SLOT\na text:4: slot 16: a number from 0 to 15 is wanted\n")
        self.ends(self.run_it("--text", "-", given=b"x"), 2, b"", "-:1: unknown command x: there are begin ")
        self.assertEqual(self.builds(), [])

    def test_answers_in_words(self):
        (self.top / "answers").write_bytes(BEGUN)
        script(self.top / "program", f'#!/bin/sh\ncat >"{self.outside}/given"\nexec cat "{self.top}/answers"\n')
        (self.outside / "tape").write_bytes(BEGIN)
        words = b"begin 0 -> Done, slot 0, version 1\n"
        title = "# sæl\n".encode()
        self.ends(self.run_it("--text", "-", given=title + b"begin 0"), 0, title + words, "run: building")
        self.ends(self.run_it("--words", "tape"), 0, words)
        self.ends(self.run_it("--words", "-", given=BEGIN), 0, words)
        self.assertEqual((self.outside / "given").read_bytes(), BEGIN)
        self.ends(self.run_it("--text", "-", given=b"begin 0\nbegin 1"), 1, words, "run: no answer to: begin 1\n")

    def test_without_words_it_runs_the_sample(self):
        script(self.top / "program", f'#!/bin/sh\nexec cat >"{self.outside}/given"\n')
        self.ends(self.run_it(), 1, (ROOT / "samples/bulletins.txt").read_bytes().split(b"begin")[0], "run: no answer to: begin 0")
        self.assertEqual((self.outside / "given").read_bytes(), (ROOT / "samples/bulletins.tape").read_bytes())

    def test_a_program_that_fails(self):
        script(self.top / "program", "#!/bin/sh\ncat\nexit 7\n")
        self.ends(self.run_it("-", given=b"x"), 7, b"x", "run: building")
        self.ends(self.run_it("--words", "-", given=BEGIN), 7, b"", "run: no answers to show, status 7\n")

    def shut(self, ends, *arguments):
        """./run with its ends as a shell gives them."""
        return self.run_it("-c", f'"$0" "$@" {ends}', self.top / "run", *arguments, command="/bin/sh")

    def test_help_is_no_wrong_call(self):
        ran = self.run_it("--help")
        self.assertEqual((ran.returncode, ran.stdout[:11], ran.stderr), (0, b"usage: run ", b""))

    def test_what_the_program_says_is_told(self):
        """The program's exit status tells nothing of it."""
        script(self.top / "program", "#!/bin/sh\ncat\necho 'bench: an answer was not written' >&2\n")
        self.ends(self.run_it("-", given=b"x"), 1, b"x", "run: building", "run: bench: an answer was not written\n")
        self.ends(self.run_it("--words", "-", given=BEGIN), 1, b"", "run: bench: an answer was not written\nrun: no answers to show")

    def test_no_answer_is_lost_in_silence(self):
        (self.outside / "tape").write_bytes(BEGIN)
        (self.top / "answers").write_bytes(BEGUN)
        script(self.top / "program", f'#!/bin/sh\nexec cat "{self.top}/answers"\n')
        self.run_it("tape")
        full = "run: standard output: No space left on device\n"
        for words in ("--words", "tape"), (), ("--text", self.top / "samples/bulletins.txt", "--tape"):
            with self.subTest(words=words):
                self.ends(self.shut(">/dev/full", *words), 1, b"", full)
                self.ends(self.shut(">&-", *words), 1, b"", "run: standard output is closed\n")
        self.ends(self.shut(">&-", "tape"), 1, b"", "run: standard output is closed\n")
        for words in ("-",), ("--words", "-"), ("--text", "-"):
            with self.subTest(words=words):
                self.ends(self.shut("<&-", *words), 1, b"", "run: standard input is closed\n")
                self.ends(self.shut("</", *words), 1, b"", "run: standard input is a directory\n")
        for end in "<&-", "</":
            self.ends(self.shut(end, "--words", "tape"), 0, b"begin 0 -> Done, slot 0, version 1\n")

    def test_another_processor(self):
        kit = self.outside / "kit"
        tools = kit / "toolchain"
        (tools / "lib").mkdir(parents=True)
        (self.tools / "uname").unlink()
        script(self.tools / "uname", "#!/bin/sh\necho other\n")
        script(self.tools / "rt", RT.replace("cat >", f'[ "$1" != doc ] || {{ echo "{kit}/START-HERE.md"; exit; }}\ncat >', 1))
        script(self.tools / "qemu-x86_64", '#!/bin/sh\necho "$@"\n')
        words = f"{tools}/lib/ld-linux-x86-64.so.2 --library-path {tools}/lib {self.top}/crates/bench/out/bench\n"
        self.ends(self.run_it("-"), 0, words.encode(), "run: building")

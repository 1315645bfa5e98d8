"""What a program adds to the text that it prints: the tests of a process with standard input and output.

Reading to the end, a pipe that comes in pieces, input that is too long or never ends, and
descriptors that fail, wait or are interrupted. A test file proves its program in `setUpModule`, and
takes each class below together with one that says which program it is:

    name    the program, and the crate that it is proved in
    text    what it prints for an input, by the reference
    stored  of `Samples`: the sample that the crate's stored run reads
    share   of `Inputs`: one in so many of the generated files is put to it
"""

import errno
import itertools
import os
import pathlib
import subprocess
import tempfile
import time
import tty

import cases
import commands
from generators.files import FULL_SHOPS
from reference.trialfile import LONGEST

ROOT = pathlib.Path(__file__).resolve().parent.parent
SECONDS = 20  # a program that has not ended by then is taken for one that never will
WAIT = 0.3  # long enough for a program that does not wait to have ended
W, ASIDE, SHOPS = ((ROOT / "samples" / f"{name}.trial").read_bytes() for name in ("w", "aside", "shops"))


def prove(name: str):
    """Proves and builds a program: it is built only where it is proved."""
    commands.program(name)


def failure(stream: str, number: int) -> bytes:
    """The line on standard error for a stream that failed with an error number."""
    return f"{stream}: {os.strerror(number)}\n".encode("ascii")


class Program:
    """A program that is called with an input."""

    @property
    def path(self) -> pathlib.Path:
        return ROOT / "target" / "bin" / self.name

    def printed(self, data: bytes) -> str:
        """What the program prints for an input, with nothing on standard error."""
        done = subprocess.run([self.path], input=data, capture_output=True, timeout=SECONDS,
                              check=True)
        self.assertEqual(done.stderr, b"")
        return done.stdout.decode("ascii")


class Samples(Program):
    stored = "w.trial"  # the sample that the crate's stored run reads

    def test_each_sample(self):
        for path in sorted((ROOT / "samples").glob("*.trial")):
            data = path.read_bytes()
            self.assertEqual(self.printed(data), self.text(data), path.name)

    def test_the_stored_run_is_the_sample(self):
        crate = ROOT / "crates" / self.name
        data = (crate / "stdin").read_bytes()
        self.assertEqual(data, (ROOT / "samples" / self.stored).read_bytes())
        self.assertEqual((crate / "stdout").read_text(), self.text(data))


class Inputs(Program):
    share = 25  # one of so many generated files

    def test_generated_files(self):
        files = itertools.chain(cases.every_case_of("file"), cases.every_case_of("bar_file"))
        for case in itertools.islice(files, 0, None, self.share):
            self.assertEqual(self.printed(case.data), self.text(case.data), case.name)

    def test_nothing(self):
        self.assertEqual(self.printed(b""), "refused 1\n")

    def test_every_byte(self):
        self.assertEqual(self.printed(bytes(range(256))), "refused 2\n")

    def test_one_word_more_than_the_longest_file(self):
        self.assertEqual(len(FULL_SHOPS), LONGEST)
        self.assertEqual(self.printed(FULL_SHOPS), self.text(FULL_SHOPS))
        self.assertEqual(self.printed(FULL_SHOPS + bytes(4)), "refused 1\n")
        self.assertEqual(self.printed(FULL_SHOPS + bytes(1)), "refused 1\n")

    def test_the_longest_file_of_pairs(self):
        """Words after its end, until the bytes are too many for any file."""
        longest = (ROOT / "samples" / "full.trial").read_bytes()
        for length in (len(longest) + 4, LONGEST):
            self.assertEqual(self.printed(longest.ljust(length, b"\0")), "refused 8\n")
        self.assertEqual(self.printed(longest.ljust(LONGEST + 4, b"\0")), "refused 1\n")

    def test_an_endless_stream(self):
        with open("/dev/zero", "rb") as zeros:
            done = subprocess.run([self.path], stdin=zeros, capture_output=True, timeout=SECONDS,
                                  check=True)
        self.assertEqual(done.stdout, b"refused 1\n")

    def test_input_in_pieces(self):
        with subprocess.Popen([self.path], stdin=subprocess.PIPE, stdout=subprocess.PIPE) as child:
            for at in range(0, len(W), 7):
                child.stdin.write(W[at:at + 7])
                child.stdin.flush()
                time.sleep(0.01)
            child.stdin.close()
            self.assertEqual(child.stdout.read().decode("ascii"), self.text(W))
            self.assertEqual(child.wait(SECONDS), 0)


class Processes(Program):
    """With a program that is started and then watched.

    What is left open or running at the end of a test is closed and ended.
    """

    def pipe(self):
        ends = os.pipe()
        for end in ends:
            self.addCleanup(self.close, end)
        return ends

    @staticmethod
    def close(descriptor):
        try:
            os.close(descriptor)
        except OSError:
            pass  # the test has closed it

    def start(self, stdin, stdout=subprocess.PIPE, **more):
        child = subprocess.Popen([self.path], stdin=stdin, stdout=stdout, stderr=subprocess.PIPE, **more)
        self.addCleanup(child.communicate)
        self.addCleanup(child.kill)
        return child

    def ends(self, child, output, error):
        """The program ends with this on standard output, None where that is the test's own, and this on standard error."""
        self.assertEqual(child.communicate(timeout=SECONDS), (output, error))
        self.assertEqual(child.returncode, 0)

    def waits(self, child):
        with self.assertRaises(subprocess.TimeoutExpired):
            child.wait(WAIT)


class FailedReads(Processes):
    def test_closed(self):
        child = self.start(None, preexec_fn=lambda: os.close(0))
        self.ends(child, b"", failure("standard input", errno.EBADF))

    def test_directory(self):
        folder = os.open(ROOT, os.O_RDONLY)
        self.addCleanup(self.close, folder)
        self.ends(self.start(folder), b"", failure("standard input", errno.EISDIR))

    def test_after_a_whole_file(self):
        # the other side of a terminal gives all of W and goes away: the next read fails
        master, slave = os.openpty()
        self.addCleanup(self.close, master)
        self.addCleanup(self.close, slave)
        tty.setraw(slave)
        child = self.start(master)
        os.write(slave, W)
        self.waits(child)
        os.close(slave)
        self.ends(child, b"", failure("standard input", errno.EIO))


class FailedWrites(Processes):
    def writes(self, error, **more):
        reads, writes = self.pipe()
        child = self.start(reads, **more)
        os.write(writes, W)
        os.close(writes)
        self.ends(child, None, failure("standard output", error))

    def test_full_disk(self):
        with open("/dev/full", "wb") as full:
            self.writes(errno.ENOSPC, stdout=full)

    def test_closed(self):
        self.writes(errno.EBADF, stdout=None, preexec_fn=lambda: os.close(1))

    def test_not_for_writing(self):
        with open("/dev/null", "rb") as null:
            self.writes(errno.EBADF, stdout=null)

    def test_nobody_reads(self):
        gone, stdout = self.pipe()
        os.close(gone)
        self.writes(errno.EPIPE, stdout=stdout)


class Waiting(Processes):
    def late_input(self, blocking, **more):
        """W in two parts, the second late, and the end of the input later still."""
        reads, writes = self.pipe()
        os.set_blocking(reads, blocking)
        child = self.start(reads, **more)
        for part in (W[:10], W[10:]):
            self.waits(child)
            os.write(writes, part)
        self.waits(child)
        os.close(writes)
        self.ends(child, self.text(W).encode("ascii"), b"")

    def late_output(self, blocking, **more):
        """Standard output is a pipe that is full, and emptied late."""
        source, feed = self.pipe()
        os.write(feed, W)
        os.close(feed)
        reads, writes = self.pipe()
        os.set_blocking(writes, False)
        filled = 0
        try:
            while True:
                filled += os.write(writes, bytes(4096))
        except BlockingIOError:
            os.set_blocking(writes, blocking)
        child = self.start(source, stdout=writes, **more)
        os.close(writes)
        self.waits(child)
        with open(reads, "rb", closefd=False) as pipe:
            self.assertEqual(pipe.read()[filled:], self.text(W).encode("ascii"))
        self.ends(child, None, b"")

    def test_input_that_does_not_block(self):
        self.late_input(False)

    def test_output_that_does_not_block(self):
        self.late_output(False)


class Interrupted(Waiting):
    """The same with signals that interrupt every call that waits."""

    @classmethod
    def setUpClass(cls):
        cls.folder = tempfile.TemporaryDirectory()
        cls.addClassCleanup(cls.folder.cleanup)
        cls.library = pathlib.Path(cls.folder.name) / "interrupts.so"
        source = ROOT / "tests" / "interrupts.c"
        subprocess.run(["gcc", "-Wall", "-Wextra", "-Werror", "-shared", "-fPIC", source, "-o", cls.library], check=True)

    def start(self, stdin, stdout=subprocess.PIPE, **more):
        return super().start(stdin, stdout, env={"LD_PRELOAD": str(self.library)}, **more)

    def test_input_that_blocks(self):
        self.late_input(True)

    def test_output_that_blocks(self):
        self.late_output(True)

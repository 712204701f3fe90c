"""What the tests of the programs setlist and checklist share: how they are run, and tests that hold for both.

A class here becomes one of tests beside unittest.TestCase and a class with these: `name` and `program`, the program's name and path; `data`
and `text`, an input and what the program prints for it; `sample` and `sample_text`, the same with a file.
"""
import os
import shutil
import subprocess
import tempfile
import time

TOP = os.path.dirname(os.path.dirname(os.path.abspath(__file__)))


def built(name):
    """The path of a program: crates/NAME/out/NAME, or the one that the environment's NAME in capitals says."""
    return os.environ.get(name.upper(), os.path.join(TOP, "crates", name, "out", name))


def read(*path, mode="r"):
    with open(os.path.join(TOP, *path), mode) as file:
        return file.read()


def run(arguments, data=b"", **options):
    return subprocess.run(arguments, input=data, capture_output=True, timeout=60, cwd=TOP, **options)


def shell(command):
    return subprocess.run(["bash", "-c", command], capture_output=True, timeout=60, cwd=TOP)


class Outputs:
    def compare(self, data, text):
        """The program prints the text for the input, and nothing else."""
        done = run([self.program], data)
        self.assertEqual(done.stdout.decode("ascii"), text)
        self.assertEqual((done.stderr, done.returncode), (b"", 0))


class Reads:
    def deliver(self, data, lengths, pause):
        """What the program prints for an input that is written to a pipe in parts, with pauses."""
        with subprocess.Popen([self.program], stdin=subprocess.PIPE, stdout=subprocess.PIPE, stderr=subprocess.STDOUT) as process:
            at = 0
            for length in lengths:
                process.stdin.write(data[at:at + length])
                process.stdin.flush()
                at += length
                time.sleep(pause)
            self.assertGreaterEqual(at, len(data))
            return process.communicate(timeout=60)[0].decode("ascii")

    def test_byte_by_byte(self):
        self.assertEqual(self.deliver(self.data, [1] * len(self.data), 0.002), self.text)

    def test_parts(self):
        data = read(self.sample, mode="rb")
        self.assertEqual(self.deliver(data, [7, 1000, 1, 4096, len(data)], 0.02), self.sample_text)


class Failures:
    """A read that fails prints nothing on standard output; a write that fails is named on standard error."""

    def test_failed_reads(self):
        for redirection in ("< .", "<&-"):
            done = shell("exec '%s' %s" % (self.program, redirection))
            self.assertEqual((done.stdout, done.returncode), (b"", 0), redirection)
            self.assertRegex(done.stderr.decode(), r"\A%s: standard input: .+\n\Z" % self.name, redirection)

    def test_failed_writes(self):
        for redirection in ("> /dev/full", ">&-"):
            done = shell("exec '%s' < %s %s" % (self.program, self.sample, redirection))
            self.assertEqual((done.stdout, done.returncode), (b"", 0), redirection)
            self.assertRegex(done.stderr.decode(), r"\A%s: standard output: .+\n\Z" % self.name, redirection)


class Wrapper:
    def check(self, arguments, status, stdout, stderr="", data=b""):
        done = run([os.path.join(TOP, self.name)] + arguments, data)
        self.assertEqual(done.stdout.decode("ascii"), stdout)
        self.assertEqual(done.returncode, status)
        self.assertIn(stderr, done.stderr.decode())
        self.assertEqual(stderr == "", done.stderr == b"")

    def test_standard_input_and_a_file(self):
        self.check([], 0, self.text, data=self.data)
        self.check([self.sample], 0, self.sample_text)

    def test_missing_and_unreadable_files(self):
        self.check(["samples/none"], 1, "", self.name + ": samples/none: there is no such file\n")
        self.check(["samples"], 1, "", self.name + ": samples: it cannot be read\n")
        self.check(["samples/none", self.sample], 1, self.sample_text, "there is no such file")
        self.check([self.sample, "samples/none"], 1, self.sample_text, "there is no such file")

    def test_failed_reads_and_writes(self):
        for redirection in ("< .", "<&-", "< SAMPLE > /dev/full", "< SAMPLE >&-"):
            done = shell("./%s %s" % (self.name, redirection.replace("SAMPLE", self.sample)))
            self.assertEqual((done.stdout, done.returncode), (b"", 1), redirection)
            self.assertNotEqual(done.stderr, b"", redirection)

    def test_help(self):
        for option in ("-h", "--help"):
            done = run([os.path.join(TOP, self.name), option])
            self.assertEqual((done.returncode, done.stderr), (0, b""))
            self.assertRegex(done.stdout.decode(), r"\A\./%s FILE[^#]*\bcould not be built\.\n\Z" % self.name)


class Building:
    """The wrapper in a repository whose program is not built."""

    def setUp(self):
        folder = tempfile.TemporaryDirectory()
        self.addCleanup(folder.cleanup)
        self.top, self.path = os.path.join(folder.name, "top"), os.path.join(folder.name, "path")
        for part in (os.path.join(self.top, "crates", self.name), os.path.join(self.top, "tools"), self.path):
            os.makedirs(part)
        shutil.copy(os.path.join(TOP, self.name), self.top)
        shutil.copy(os.path.join(TOP, "tools", "desk"), os.path.join(self.top, "tools"))
        open(os.path.join(self.top, "crates.txt"), "w").close()
        for tool in ("bash", "dirname", "find", "touch", "mktemp", "cat", "tail", "rm", "mkdir", "cp"):
            os.symlink(shutil.which(tool), os.path.join(self.path, tool))

    def wrapper(self):
        return run([os.path.join(self.top, self.name)], self.data, env={"PATH": self.path})

    def toolchain(self, script):
        """A command rt that does no more than the script."""
        path = os.path.join(self.path, "rt")
        with open(path, "w") as file:
            file.write("#!%s\n%s\n" % (shutil.which("bash"), script))
        os.chmod(path, 0o755)

    def test_no_toolchain(self):
        done = self.wrapper()
        self.assertEqual((done.stdout, done.returncode), (b"", 2))
        self.assertIn(b"rt is not on PATH", done.stderr)

    def test_failed_build(self):
        self.toolchain("echo a proof is missing; exit 1")
        done = self.wrapper()
        self.assertEqual((done.stdout, done.returncode), (b"", 2))
        self.assertIn(b"a proof is missing", done.stderr)

    def test_build(self):
        place = (self.name, self.program, self.name)
        self.toolchain("[ \"${PWD##*/} $*\" = '%s run' ] && mkdir -p out && cp '%s' out/%s" % place)
        done = self.wrapper()
        self.assertEqual((done.stdout.decode(), done.returncode), (self.text, 0))
        self.assertIn(b"building", done.stderr)
        self.assertEqual(self.wrapper().stderr, b"")

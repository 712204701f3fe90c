"""Tests of what tools/dist built: the files of dist/, the programs, the libraries, the README's examples, and an installation."""
import os
import re
import shutil
import subprocess
import sys
import tempfile
import unittest

from c_program import C99, CPP17, DIST, TOP, build, run

# What stands as it is in the repository: its name in dist/, and its place there and in an installation.
COPIES = {
    "dfb.h": ("include", "include"),
    "dfb.py": ("python", "share/dfb"),
    "plot": ("tools", "share/dfb"),
    "HANDBOOK.md": ("docs", "share/doc/dfb"),
    "AUDIT.md": ("docs", "share/doc/dfb"),
    "LICENSE": ("", "share/doc/dfb"),
}
for _name in ("day-start", "bursts", "damaged", "rounded-down"):
    COPIES.update({"samples/%s.%s" % (_name, kind): ("", "share/doc/dfb") for kind in ("log", "txt")})
for _name in ("commands", "commands-altered", "commands-period"):
    COPIES.update({"samples/%s.%s" % (_name, kind): ("", "share/doc/dfb") for kind in ("list", "check")})
# The programs, and what each prints for an empty input.
PROGRAMS = {"setlist": b"DFB LOG 1\nEND 0\n", "checklist": b"OK 0000 0000 0000 0000 0000 0000 0000\n"}


def read(*path):
    with open(os.path.join(TOP, *path), encoding="utf8") as file:
        return file.read()


def version():
    return re.search(r'#define DFB_VERSION "(.*)"', read("include", "dfb.h")).group(1)


def soname():
    return "libdfb.so." + version().split(".")[0]


def files_below(folder):
    files = [os.path.relpath(os.path.join(place, name), folder) for place, _, names in os.walk(folder) for name in names]
    return sorted(name for name in files if "__pycache__" not in name)


def output(*command, **options):
    return subprocess.run(command, capture_output=True, check=True, encoding="utf8", **options).stdout


def example(under, *path, after=""):
    """A document's example under the line that starts so and ends in a colon, the first from the text `after` on."""
    text = read(*path)
    block = re.search(r"^%s\b.*:\n\n((?:    .*\n)+)" % under, text[text.index(after):], re.MULTILINE).group(1)
    return re.sub("^    ", "", block, flags=re.MULTILINE)


class Tools(unittest.TestCase):
    def need(self, *commands):
        for command in commands:
            if shutil.which(command) is None:
                self.skipTest("%s is not there" % command)


class Dist(Tools):
    def test_files(self):
        self.assertEqual(files_below(DIST), sorted(["libdfb.a", "libdfb.so", soname(), "dfb.pc", *PROGRAMS, *COPIES]))
        for name, (folder, _) in COPIES.items():
            with open(os.path.join(DIST, name), "rb") as copy, open(os.path.join(TOP, folder, name), "rb") as original:
                self.assertEqual(copy.read(), original.read(), name)

    def test_programs(self):
        for name, text in (("setlist", b"DFB LOG 1\nT\nEND 1\n"), ("checklist", b"BAD 18 0\n")):
            done = subprocess.run([os.path.join(DIST, name)], input=b"\x04", capture_output=True)
            self.assertEqual(done.stdout, text)

    def compile_and_run(self, compiler, options, text, expected):
        self.need(compiler)
        with tempfile.TemporaryDirectory() as folder:
            source, program = os.path.join(folder, "program.c"), os.path.join(folder, "program")
            with open(source, "w", encoding="utf8") as file:
                file.write(text)
            built = build(compiler, options, source, program)
            self.assertEqual((built.returncode, built.stderr), (0, ""))
            self.assertEqual(run(program).stdout, expected)

    def run_as_written(self, language, name, *path):
        """Runs a document's example by the command beside it, which has its name, in a folder that has dist/; what the program then prints."""
        command = re.search(r"^%s \(`(.*\b%s\b.*)`\):$" % (language, re.escape(name)), read(*path), re.MULTILINE).group(1)
        with tempfile.TemporaryDirectory() as folder:
            os.symlink(DIST, os.path.join(folder, "dist"))
            with open(os.path.join(folder, name), "w", encoding="utf8") as file:
                file.write(example(language, *path, after="%s (`%s`)" % (language, command)))
            environment = {**os.environ, "PKG_CONFIG_PATH": DIST, "LD_LIBRARY_PATH": DIST}
            printed = output("bash", "-c", command, cwd=folder, env=environment)
            program = os.path.join(folder, os.path.splitext(name)[0])
            return output(program, env=environment) if os.path.exists(program) else printed

    def test_readme_c(self):
        self.need("cc")
        self.assertEqual(self.run_as_written("C", "example.c", "README.md"), "report 1: 18 words\n")
        self.compile_and_run("cc", C99, example("C", "README.md"), "report 1: 18 words\n")

    def test_readme_cpp(self):
        self.compile_and_run("c++", CPP17, example("C", "README.md"), "report 1: 18 words\n")

    def test_readme_python(self):
        self.assertEqual(self.run_as_written("Python", "example.py", "README.md"), "Report(words=%r, number=1)\n" % (b"N\0\0" * 18))

    def test_handbook(self):
        self.need("cc", "pkg-config")
        self.assertEqual(self.run_as_written("C", "walk.c", "docs", "HANDBOOK.md"), example("It prints", "docs", "HANDBOOK.md"))
        self.compile_and_run("cc", C99, example("C", "docs", "HANDBOOK.md"), example("It prints", "docs", "HANDBOOK.md"))

    def test_handbook_python(self):
        for name in ("items.py", "counted.py", "snapshot.py", "summed.py", "packets.py"):
            shown = example("It shows", "docs", "HANDBOOK.md", after=name)
            self.assertEqual(self.run_as_written("Python", name, "docs", "HANDBOOK.md"), shown)

    def test_handbook_beside_the_header(self):
        """What is to be tried can be tried in dist/."""
        for command, last in re.findall(r"Try it: `([^`]*)` ends in `([^`]*)`", read("docs", "HANDBOOK.md")):
            self.assertEqual(output("bash", "-c", command, cwd=DIST).splitlines()[-1], last)
        with tempfile.TemporaryDirectory() as folder:
            output("./plot", "samples/day-start.txt", folder, cwd=DIST)
            self.assertIn("day-start-1.svg", os.listdir(folder))

    # The header needs nothing before it, and nothing of it need be used.
    ALONE = '#include "dfb.h"\n#include "dfb.h"\nint main(void) { return 0; }\n'

    def test_header_alone_c(self):
        self.compile_and_run("cc", C99, self.ALONE, "")

    def test_header_alone_cpp(self):
        self.compile_and_run("c++", CPP17, self.ALONE, "")
        self.compile_and_run("c++", ["-std=c++11", "-x", "c++"], self.ALONE, "")

    def test_refusal_of_an_8_bit_answer(self):
        """dfb_refusal takes no answer of a type that no refusal has."""
        self.need("cc")
        with tempfile.TemporaryDirectory() as folder:
            source = os.path.join(folder, "program.c")
            with open(source, "w", encoding="utf8") as file:
                file.write('#include "dfb.h"\nint main(void) { return (int)dfb_refusal(dfb_compress_band(7)); }\n')
            self.assertNotEqual(build("cc", C99, source, os.path.join(folder, "program")).returncode, 0)


class Libraries(Tools):
    def test_exports(self):
        self.need("nm")
        declared = set(re.findall(r"^\w+ (dfb_\w+)\([^{()]*\);", read("include", "dfb.h"), re.MULTILINE))
        symbols = output("nm", "-D", "--defined-only", os.path.join(DIST, "libdfb.so"))
        self.assertEqual({line.split()[2] for line in symbols.splitlines()}, declared)

    def test_no_state(self):
        """No object of the archive has memory of its own that can be written."""
        self.need("objdump")
        sections = output("objdump", "-h", "-w", os.path.join(DIST, "libdfb.a"))
        found = re.findall(r"^ +\d+ (\S+) +([0-9a-f]+) .*ALLOC(.*)$", sections, re.MULTILINE)
        self.assertTrue(found)
        self.assertEqual([name for name, size, flags in found if int(size, 16) != 0 and "READONLY" not in flags], [])

    def test_dependencies(self):
        """memcpy and memset of the C library, of the version that the header names or an older one."""
        self.need("nm", "objdump")
        undefined = re.findall(r"^ +U (\w+)", output("nm", "-u", os.path.join(DIST, "libdfb.a")), re.MULTILINE)
        self.assertLessEqual(set(undefined), {"memcpy", "memmove", "memset"})
        for pattern, path, name in (
            (r"glibc (\d+)\.(\d+) or later", ("include", "dfb.h"), "libdfb.so"),
            (r"needs glibc (\d+)\.(\d+) or later", ("README.md",), "libdfb.so"),
            (r"`setlist` and `checklist` glibc (\d+)\.(\d+)", ("README.md",), "setlist"),
            (r"`setlist` and `checklist` glibc (\d+)\.(\d+)", ("README.md",), "checklist"),
        ):
            versions = re.findall(r"GLIBC_(\d+)\.(\d+)", output("objdump", "-T", os.path.join(DIST, name)))
            named = re.search(pattern, read(*path)).groups()
            self.assertEqual(max(tuple(map(int, numbers)) for numbers in versions), tuple(map(int, named)))

    def test_soname(self):
        self.need("objdump")
        self.assertIn(soname(), re.findall(r"SONAME +(\S+)", output("objdump", "-p", os.path.join(DIST, "libdfb.so"))))
        self.assertEqual(os.readlink(os.path.join(DIST, "libdfb.so")), soname())


class Installation(Tools):
    """What pkg-config says is enough to build and run a program, from dist/ and from an installation."""

    PROGRAM = '#include <dfb.h>\n#include <stdio.h>\nint main(void) { puts(DFB_VERSION); return (int)dfb_compress_band(7) - 7; }\n'

    def build_by_pkg_config(self, folder, library):
        """The flags go through a shell, as a user's do."""
        environment = {**os.environ, "PKG_CONFIG_PATH": folder, "LD_LIBRARY_PATH": library}
        self.assertEqual(output("pkg-config", "--modversion", "dfb", env=environment).strip(), version())
        flags = output("pkg-config", "--cflags", "--libs", "dfb", env=environment).strip()
        with tempfile.TemporaryDirectory() as work:
            with open(os.path.join(work, "program.c"), "w", encoding="utf8") as file:
                file.write(self.PROGRAM)
            output("bash", "-c", "cc -std=c99 program.c %s -o program" % flags, cwd=work)
            self.assertEqual(output(os.path.join(work, "program"), env=environment), version() + "\n")

    def test_dist(self):
        self.need("pkg-config", "cc")
        self.build_by_pkg_config(DIST, DIST)

    def test_prefix(self):
        """An installation in a folder whose name has a space."""
        self.need("rt", "ar", "cc")
        with tempfile.TemporaryDirectory() as folder:
            prefix = os.path.join(folder, "a prefix", "usr")
            output(os.path.join(TOP, "tools", "dist"), prefix)
            copies = [os.path.join(place, name) for name, (_, place) in COPIES.items()]
            libraries = ["lib/libdfb.a", "lib/libdfb.so", "lib/" + soname()]
            programs = ["bin/" + name for name in PROGRAMS]
            self.assertEqual(files_below(prefix), sorted([*programs, "lib/pkgconfig/dfb.pc", *libraries, *copies]))
            for name, (_, place) in COPIES.items():
                with open(os.path.join(prefix, place, name), "rb") as copy, open(os.path.join(DIST, name), "rb") as original:
                    self.assertEqual(copy.read(), original.read(), name)
            for name, text in PROGRAMS.items():
                done = subprocess.run([os.path.join(prefix, "bin", name)], input=b"", capture_output=True)
                self.assertEqual(done.stdout, text)
            script = "import dfb; print(dfb.__version__, dfb._library._name)"
            environment = {"PYTHONPATH": os.path.join(prefix, "share", "dfb"), "PYTHONDONTWRITEBYTECODE": "1"}
            found, library = output(sys.executable, "-c", script, env=environment).strip().split(" ", 1)
            self.assertEqual((found, os.path.realpath(library)), (version(), os.path.join(os.path.realpath(prefix), "lib", soname())))
            self.need("pkg-config")
            self.build_by_pkg_config(os.path.join(prefix, "lib", "pkgconfig"), os.path.join(prefix, "lib"))

    def test_usage(self):
        for arguments in (["--help"], ["one", "two"]):
            done = subprocess.run([os.path.join(TOP, "tools", "dist"), *arguments], capture_output=True)
            self.assertEqual((done.returncode, done.stdout), (2, b"usage: tools/dist [PREFIX]\n"))


if __name__ == "__main__":
    unittest.main()

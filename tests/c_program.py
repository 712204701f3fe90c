"""Compiles a C program against the header and a library of dist/, with all warnings as errors, and runs it."""
import os
import shutil
import subprocess

TOP = os.path.dirname(os.path.dirname(os.path.abspath(__file__)))
DIST = os.path.join(TOP, "dist")
WARNINGS = ["-Wall", "-Wextra", "-Wpedantic", "-Wshadow", "-Wconversion", "-Wsign-conversion", "-Wcast-qual", "-Werror"]
C99, CPP17 = ["-std=c99", "-Wstrict-prototypes"], ["-std=c++17", "-x", "c++"]
SANITIZERS = ["-g", "-fsanitize=address,undefined", "-fno-sanitize-recover=all"]


def build(compiler, options, source, program, include=DIST, library=os.path.join(DIST, "libdfb.a")):
    """The finished compilation, whose status is 0 where the program was made."""
    command = [compiler, *options, *WARNINGS, "-I", include, source, "-x", "none", library, "-pthread", "-o", program]
    return subprocess.run(command, capture_output=True, encoding="utf8")


def run(program):
    """The finished run; one that takes over two minutes is ended, with a status that is not 0."""
    command = ["timeout", "120", program] if shutil.which("timeout") else [program]
    return subprocess.run(command, capture_output=True, encoding="utf8", env={**os.environ, "LD_LIBRARY_PATH": DIST})

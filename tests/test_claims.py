"""Every claim of specs/ has its theorem: a definition `Name : Type 0` stands as the type of a public theorem of the same crate. The prover
checks each theorem, but not that there is one."""
import glob
import os
import re
import unittest

TOP = os.path.dirname(os.path.dirname(os.path.abspath(__file__)))


def texts(*pattern):
    for path in sorted(glob.glob(os.path.join(TOP, "crates", *pattern), recursive=True)):
        with open(path, encoding="utf8") as file:
            yield path, file.read()


def claims():
    """Each claim with its crate."""
    for path, text in texts("*", "specs", "**", "*.antt"):
        crate = os.path.relpath(path, os.path.join(TOP, "crates")).split(os.sep)[0]
        yield from ((crate, name) for name in re.findall(r"^(?:abbrev|unfoldable) pub (\w+) : Type 0$", text, re.MULTILINE))


def theorems(crate):
    """The types of the public theorems of a crate that are one name."""
    return {name for _, text in texts(crate, "proofs", "**", "*.antt") for name in re.findall(r"^ *pub \S+ : (\w+)$", text, re.MULTILINE)}


class Claims(unittest.TestCase):
    def test_every_claim_has_its_theorem(self):
        crates = {}
        for crate, name in claims():
            crates.setdefault(crate, []).append(name)
        self.assertGreater(len(crates), 10)
        for crate, names in crates.items():
            self.assertEqual(sorted(set(names) - theorems(crate)), [], crate)


if __name__ == "__main__":
    unittest.main()

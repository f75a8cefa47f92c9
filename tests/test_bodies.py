"""Texts that stand for others fit the files of the crates: those of wrong bodies, of wrong searches and of low budgets stand there once."""
import glob
import os
import shutil
import subprocess
import sys
import tempfile
import unittest
from runpy import run_path

TOP = os.path.dirname(os.path.dirname(os.path.abspath(__file__)))
sys.path.append(os.path.join(TOP, "bench"))


def count_in(crate, file, text):
    """How often the text stands in a file of the crate."""
    with open(os.path.join(TOP, "crates", crate, file), encoding="utf-8") as opened:
        return opened.read().count(text)


class Fit(unittest.TestCase):
    def test_wrong_bodies(self):
        by_crate = run_path(os.path.join(TOP, "mutants/run"))["edits_of"]([])
        edits = [(crate, edit) for crate, found in by_crate.items() for edit in found]
        self.assertEqual(len(edits), len(glob.glob(os.path.join(TOP, "mutants/*/*.edit"))))
        unfit = [edit.name for crate, edit in edits if not edit.triples or edit.changed({}, os.path.join(TOP, "crates", crate)) is None]
        self.assertEqual(unfit, [])

    @unittest.skipUnless(shutil.which("cargo"), "cargo is needed to compile wrong bodies as plain Rust")
    def test_wrong_bodies_are_rust(self):
        """One that does not compile is not refused by its meaning, which `mutants/run` sees much later."""
        run, rust = (run_path(os.path.join(TOP, path)) for path in ("mutants/run", "bench/as_rust.py"))
        groups = {crate: run["groups_of"](found, os.path.join(TOP, "crates", crate)) for crate, found in run["edits_of"]([]).items()}
        with tempfile.TemporaryDirectory() as folder:
            for turn in range(max(map(len, groups.values()))):
                texts = {}
                for crate, found in groups.items():
                    for file, text in run["changed"](found[turn] if turn < len(found) else [], os.path.join(TOP, "crates", crate)).items():
                        texts[f"{crate}/{file.removeprefix('src/').removesuffix('.rt')}"] = text
                rust["write_all"](folder, [rust["MAIN"], "test_devices"], lambda place, text: texts.get(place, text))
                check = subprocess.run(["cargo", "check", "--offline", "--quiet", "--workspace"], cwd=folder, capture_output=True, text=True,
                                       env={**os.environ, "RUSTC_BOOTSTRAP": "1"})
                self.assertEqual(check.returncode, 0, check.stderr)

    def test_wrong_searches(self):
        for path in glob.glob(os.path.join(TOP, "tests/wrong_searches/*.edit")):
            with open(path, encoding="utf-8") as opened:
                words = dict(line.rstrip("\n").split(": ", 1) for line in opened if ": " in line)
            crate = words.get("crate", "sat_search").strip()
            self.assertEqual(count_in(crate, words["file"].strip(), words["old"]), 1, path)

    def test_low_budgets(self):
        for changes in run_path(os.path.join(TOP, "bench/low_budgets.py"))["BUILDS"].values():
            for place, old, _ in changes:
                crate, _, file = place.partition("/")
                self.assertEqual(count_in(crate, f"src/{file}.rt", old), 1, (place, old))

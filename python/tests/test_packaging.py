"""`pip install ./python` puts the program of dist/ into the package, out of a checkout whose path has blanks, without a
network.
"""
from __future__ import annotations

import os
import shutil
import subprocess
import sys
import tarfile
import tempfile
import unittest
import zipfile
from pathlib import Path

TOP = Path(__file__).resolve().parents[2]
PROGRAM = (TOP / "dist" / "dcx").read_bytes()
MODEL = """
import dcx.cvxpy as cp
import dcx.program
x = cp.Variable(2, nonneg=True)
prob = cp.Problem(cp.Maximize(3*x[0] + 2*x[1]), [x[0] + x[1] <= 4, x[0] <= 3])
print(prob.solve(), dcx.program.find())
"""


def environment():
    """Without what would lead to another program or another package."""
    return {key: value for key, value in os.environ.items() if key not in ("DCX", "PYTHONPATH", "PYTHONHOME")}


def run(*words, folder, wanted=0):
    """What a command says; it has to end with this status."""
    done = subprocess.run([str(word) for word in words], cwd=folder, env=environment(), stdin=subprocess.DEVNULL,
                          stdout=subprocess.PIPE, stderr=subprocess.STDOUT, text=True)
    if (done.returncode == 0) != (wanted == 0):
        raise AssertionError(f"{words} ended with status {done.returncode}\n{done.stdout}")
    return done.stdout


def files(folder):
    return sorted(path.relative_to(folder) for path in folder.rglob("*") if path.is_file())


class Packaging(unittest.TestCase):
    @classmethod
    def setUpClass(cls):
        cls.room = Path(tempfile.mkdtemp(prefix="dcx packaging "))
        cls.addClassCleanup(shutil.rmtree, cls.room)
        cls.checkout = cls.copy("a check out")
        run(sys.executable, "-m", "venv", "--system-site-packages", cls.room / "its python", folder=cls.room)
        cls.python = cls.room / "its python" / "bin" / "python"

    @classmethod
    def copy(cls, name):
        """A checkout with the package and dist/."""
        checkout = cls.room / name
        shutil.copytree(TOP / "python", checkout / "python",
                        ignore=shutil.ignore_patterns("tests", "__pycache__", "build", "*.egg-info", "bin"))
        shutil.copytree(TOP / "dist", checkout / "dist")
        return checkout

    def pip(self, *words, folder=None, wanted=0):
        offline = ["--no-build-isolation", "--no-deps", "--no-index", "--disable-pip-version-check"]
        return run(self.python, "-m", "pip", *words, *offline, folder=folder or self.checkout, wanted=wanted)

    def wheel(self, source, folder):
        out = Path(tempfile.mkdtemp(dir=self.room))
        self.pip("wheel", source, "-w", out, folder=folder)
        (made,) = out.iterdir()
        return made

    def check_wheel(self, made):
        self.assertRegex(made.name, r"^dcx-[0-9.]+-py3-none-linux_x86_64\.whl$")
        with zipfile.ZipFile(made) as wheel:
            self.assertEqual(wheel.read("dcx/bin/dcx"), PROGRAM)
            self.assertTrue(wheel.getinfo("dcx/bin/dcx").external_attr >> 16 & 0o100, "the program is executable")
            (about,) = [name for name in wheel.namelist() if name.endswith(".dist-info/WHEEL")]
            self.assertIn("Root-Is-Purelib: false", wheel.read(about).decode())
            packed = {name for name in wheel.namelist() if name.startswith("dcx/")}
        source = self.checkout / "python" / "dcx"
        wanted = {f"dcx/{path.relative_to(source)}" for path in source.rglob("*.py")}
        self.assertEqual(packed, wanted | {"dcx/bin/dcx", "dcx/bin/dcx.sha256"})

    def test_wheel(self):
        before = files(self.checkout)
        self.check_wheel(self.wheel("./python", self.checkout))
        self.assertEqual(files(self.checkout), before, "the checkout is as it was")

    def test_install(self):
        self.pip("install", "--force-reinstall", "./python")
        said = run(self.python, "-c", MODEL, folder=self.room)
        value, where = said.split(maxsplit=1)
        self.assertEqual(float(value), 11)
        installed = Path(where.strip())
        self.assertEqual(installed.parts[-3:], ("dcx", "bin", "dcx"))
        self.assertIn("site-packages", installed.parts)
        self.assertEqual(installed.read_bytes(), PROGRAM)
        self.assertTrue(os.access(installed, os.X_OK))
        # The same without NumPy in reach.
        bare = f"import sys; sys.path.append({str(installed.parents[2])!r})\n{MODEL}\nassert 'numpy' not in sys.modules"
        self.assertEqual(float(run(self.python, "-I", "-S", "-c", bare, folder=self.room).split()[0]), 11)

    def test_editable_install_runs_the_checkout(self):
        checkout = self.copy("to edit")
        target = self.room / "edited"
        self.pip("install", "--target", target, "-e", "./python", folder=checkout)
        said = run(self.python, "-c", f"import site; site.addsitedir({str(target)!r})\n{MODEL}", folder=self.room)
        self.assertEqual(said.split(maxsplit=1)[0], "11.0")
        self.assertEqual(Path(said.split(maxsplit=1)[1].strip()), checkout / "dist" / "dcx")

    def test_sdist_has_the_program(self):
        out = self.room / "sdist"
        out.mkdir()
        hook = f"from setuptools import build_meta; print(build_meta.build_sdist({str(out)!r}))"
        name = run(self.python, "-c", hook, folder=self.checkout / "python").split()[-1]
        with tarfile.open(out / name) as packed:
            packed.extractall(out)
        (unpacked,) = [path for path in out.iterdir() if path.is_dir()]
        self.assertEqual((unpacked / "dcx" / "bin" / "dcx").read_bytes(), PROGRAM)
        self.check_wheel(self.wheel(unpacked, self.room))

    def test_no_program_is_refused(self):
        checkout = self.copy("with nothing in dist")
        for name in ("dcx", "dcx.sha256"):
            (checkout / "dist" / name).unlink()
        sdist = "from setuptools import build_meta; build_meta.build_sdist('out')"
        for said in (
            self.pip("install", "./python", folder=checkout, wanted=1),
            self.pip("wheel", "./python", folder=checkout, wanted=1),
            run(self.python, "-c", sdist, folder=checkout / "python", wanted=1),
        ):
            self.assertIn("the program isn't there, so nothing is built", said)
            self.assertIn(str(checkout / "dist" / "dcx"), said)

    def test_another_program_is_refused(self):
        checkout = self.copy("with another program")
        (checkout / "dist" / "dcx").write_bytes(b"another one")
        said = self.pip("wheel", "./python", folder=checkout, wanted=1)
        self.assertIn("is not the program that", said)


if __name__ == "__main__":
    unittest.main()

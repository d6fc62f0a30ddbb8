"""Puts the program of dist/ into the package that is built: dcx/bin/dcx, with its checksum. All else stands in
pyproject.toml.
"""
import hashlib
import shutil
import sys
import tempfile
from pathlib import Path

from setuptools import Distribution, setup
from setuptools.command.build_py import build_py
from setuptools.command.sdist import sdist

try:
    from setuptools.command.bdist_wheel import bdist_wheel
except ImportError:
    from wheel.bdist_wheel import bdist_wheel

HERE = Path(__file__).resolve().parent
PLATFORM = "linux_x86_64"  # what the program of dist/ runs on


def program():
    """The program and its checksum: those of the checkout, or in an unpacked sdist those that lie in it."""
    for folder in (HERE.parent / "dist", HERE / "dcx" / "bin"):
        made, stated = folder / "dcx", folder / "dcx.sha256"
        if made.is_file() and stated.is_file():
            if hashlib.sha256(made.read_bytes()).hexdigest() != stated.read_text().split()[0]:
                sys.exit(f"{made} is not the program that {stated} speaks of, so nothing is built")
            return made, stated
    sys.exit(f"the program isn't there, so nothing is built: {HERE.parent / 'dist' / 'dcx'}, with dcx.sha256 beside it")


def put_program(package):
    """Copies the program into the folder of a package that is built."""
    made, stated = program()
    folder = Path(package) / "bin"
    folder.mkdir(parents=True, exist_ok=True)
    shutil.copyfile(made, folder / "dcx")
    (folder / "dcx").chmod(0o755)
    shutil.copyfile(stated, folder / "dcx.sha256")


class WithProgram(build_py):
    def run(self):
        super().run()
        if not self.editable_mode:  # an editable install finds the program of the checkout
            put_program(Path(self.build_lib) / "dcx")


class SourcesWithProgram(sdist):
    def make_release_tree(self, base_dir, files):
        super().make_release_tree(base_dir, files)
        put_program(Path(base_dir) / "dcx")


class Wheel(bdist_wheel):
    """A wheel for one platform and every Python 3: the program is no extension of an interpreter."""

    def finalize_options(self):
        super().finalize_options()
        self.root_is_pure = False

    def get_tag(self):
        return "py3", "none", PLATFORM


class Package(Distribution):
    def has_ext_modules(self):
        return True


# What a build makes on its way lies in a temporary folder: a checkout stays as it is, and no module of an earlier build
# gets into a wheel.
with tempfile.TemporaryDirectory(prefix="dcx-build-") as room:
    setup(
        distclass=Package,
        cmdclass={"build_py": WithProgram, "sdist": SourcesWithProgram, "bdist_wheel": Wheel},
        options={"build": {"build_base": room}, "egg_info": {"egg_base": room},
                 "bdist_wheel": {"bdist_dir": f"{room}/wheel"}},
    )

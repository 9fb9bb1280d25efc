"""Builds the package from a checkout in which `make` has run: the shared library goes into it, and what the header
declares, as packages/bindings reads it. Everything made on the way stands below ../target/python."""
import os
import shutil
import subprocess
import sys

import cffi
from setuptools import setup
from setuptools.command.build_py import build_py
from wheel.bdist_wheel import bdist_wheel

TOP = os.path.dirname(os.path.dirname(os.path.abspath(__file__)))
LIBRARY = os.path.join(TOP, "target", "lib", "libvejgodat.so")
MADE = os.path.join(TOP, "target", "python")


def declared():
    return subprocess.run([sys.executable, os.path.join(TOP, "packages", "bindings"), "cffi"], stdout=subprocess.PIPE,
                          check=True, encoding="utf8").stdout


def version():
    number = int(next(line.split()[2] for line in declared().splitlines() if line.startswith("#define VEJGODAT_VERSION ")))
    return f"{number // 10000}.{number // 100 % 100}.{number % 100}"


class Build(build_py):
    def run(self):
        shutil.rmtree(os.path.join(MADE, "lib"), ignore_errors=True)    # what an earlier build left
        super().run()
        if not os.path.exists(LIBRARY):
            raise SystemExit(f"{LIBRARY} is missing: make at the top builds it")
        to = os.path.join(self.build_lib, "vejgodat")
        shutil.copy(LIBRARY, to)
        ffi = cffi.FFI()
        ffi.cdef(declared())
        ffi.set_source("vejgodat._declarations", None)
        ffi.emit_python_code(os.path.join(to, "_declarations.py"))


class Wheel(bdist_wheel):
    """For any Python 3 of this machine's kind: the library is for it, and no module is compiled."""

    def finalize_options(self):
        super().finalize_options()
        self.root_is_pure = False

    def get_tag(self):
        return ("py3", "none", super().get_tag()[2])


os.makedirs(MADE, exist_ok=True)
setup(name="vejgodat", version=version(), description="Proved repartitioning of coarse meshes", packages=["vejgodat"],
      python_requires=">=3.9", install_requires=["cffi", "numpy"], cmdclass={"build_py": Build, "bdist_wheel": Wheel},
      options={"build": {"build_base": MADE}, "egg_info": {"egg_base": MADE}}, zip_safe=False)

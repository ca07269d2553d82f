"""Builds the extension over the installed library. Without a compiler or the library's header, the module uses ctypes."""

import shutil
import subprocess

from setuptools import Extension, setup


def flags(option):
    """Returns what pkg-config prints for this option, or the usual flags."""
    if shutil.which("pkg-config"):
        found = subprocess.run(["pkg-config", option, "sfv"], stdout=subprocess.PIPE, stderr=subprocess.DEVNULL, text=True)
        if found.returncode == 0:
            return found.stdout.split()
    return ["-lsfv"] if option == "--libs" else []


extension = Extension(
    "sfv._sfv",
    ["sfv/_sfv.c"],
    extra_compile_args=flags("--cflags"),
    extra_link_args=flags("--libs"),
    py_limited_api=True,
    optional=True,
)
setup(ext_modules=[extension], options={"bdist_wheel": {"py_limited_api": "cp39"}})

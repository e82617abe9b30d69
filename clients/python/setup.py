"""Compiles the extension for embedded stores too, if JPSTORE_LIB names the folder of libjpstore.a: `clients/c/out`.

It is for each Python from 3.10 on, or for one that is older.
"""
import os
import sys

from setuptools import Extension, setup

library = os.environ.get("JPSTORE_LIB")
stable = sys.version_info >= (3, 10)
extensions = [
    Extension("jpstore._embedded", ["jpstore/_embedded.c"], include_dirs=[library],
              extra_objects=[os.path.join(library, "libjpstore.a")], depends=[os.path.join(library, "jpstore.h")],
              define_macros=[("Py_LIMITED_API", "0x030a0000")] if stable else [], py_limited_api=stable,
              extra_compile_args=["-std=c11", "-fvisibility=hidden"], extra_link_args=["-Wl,--exclude-libs,ALL"]),
] if library else []

setup(ext_modules=extensions, options={"bdist_wheel": {"py_limited_api": "cp310"}} if extensions and stable else {})

#!/usr/bin/env python3
"""Installs the packages of Debian that the gate's scripts need, while proofs go on, so that no script waits for them later.

Each script says itself what it needs, and still does so if a package is missing.
"""
import os
import shutil
import sys

sys.dont_write_bytecode = True
sys.path.insert(0, os.path.join(os.path.dirname(os.path.abspath(__file__)), "..", "tests", "gate"))
import test_browser
import test_clients
import test_embedded
import test_replicated
from debian_packages import install


def main():
    test_clients.python_with_tools()
    test_embedded.install_missing()
    missing = [*test_browser.missing(), *test_replicated.missing(), *([] if shutil.which("strace") else ["strace"])]
    install(list(dict.fromkeys(missing)))


if __name__ == "__main__":
    main()

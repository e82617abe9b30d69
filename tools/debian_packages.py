"""Installs the packages of Debian that a script needs and that aren't there. Scripts that run side by side wait for one another."""
import fcntl
import importlib
import os
import shutil
import subprocess

# Only root writes in this folder, so nobody else can put another file there.
LOCK = "/run/jpstore-packages.lock"


def may_install():
    """Whether this user may install packages."""
    return shutil.which("apt-get") is not None and os.geteuid() == 0


def apt(*words, cwd=None):
    """Runs apt-get without a question, after the other scripts of this tree that do."""
    environment = {**os.environ, "DEBIAN_FRONTEND": "noninteractive"}
    os.makedirs(os.path.dirname(LOCK), exist_ok=True)
    with open(LOCK, "w", encoding="utf-8") as lock:
        fcntl.flock(lock, fcntl.LOCK_EX)
        subprocess.call(["apt-get", "-q", "-o", "DPkg::Lock::Timeout=600", *words], cwd=cwd, env=environment, stdin=subprocess.DEVNULL, stdout=subprocess.DEVNULL)


def install(packages):
    """Installs these packages, if there are any, and this user may do that."""
    if packages and may_install():
        apt("update")
        apt("install", "-y", "--no-install-recommends", *packages)
        importlib.invalidate_caches()

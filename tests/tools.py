"""Finds the programs that a test needs, and installs them from Debian where it may."""

import os
import shutil
import subprocess


class Missing(Exception):
    """Which command the machine lacks."""


def find(command, package=None, path=None):
    """The path of a command.

    A command that the machine lacks is installed from the Debian package, if one is named, and if
    the test runs as root on a machine with apt-get. `path` is a file to look for in place of a
    command. Raises Missing if it isn't found.
    """
    found = _look(command, path)
    if found is None and package and os.geteuid() == 0 and shutil.which("apt-get"):
        _install(package)
        found = _look(command, path)
    if found is None:
        raise Missing(command)
    return found


def _look(command, path):
    if path is None:
        return shutil.which(command)
    return path if os.path.exists(path) else None


def _install(package):
    """Installs a Debian package; if apt-get knows none, it reads the lists of packages first."""
    words = ["apt-get", "-qq", "-o", "Acquire::Retries=0", "-o", "DPkg::Lock::Timeout=60"]
    install = ["install", "--yes", "--no-install-recommends", package]
    for calls in ([install], [["update"], install]):
        if all(_call(words + call) for call in calls):
            return


def _call(words):
    """Whether a command ends well. It asks nobody, and prints nothing."""
    try:
        return subprocess.run(
            words, stdin=subprocess.DEVNULL, stdout=subprocess.DEVNULL, stderr=subprocess.DEVNULL,
            env={**os.environ, "DEBIAN_FRONTEND": "noninteractive"}, timeout=300, check=False,
        ).returncode == 0
    except subprocess.TimeoutExpired:
        return False

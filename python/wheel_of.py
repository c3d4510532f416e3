"""Builds the wheel of the package, without network: `pip wheel python/` calls it (PEP 517).

The wheel contains the shared library: that of DEBCTL_LIBRARY, or else of `libs/build`. Two runs
make the same bytes.
"""

import base64
import hashlib
import os
import re
import subprocess
import tempfile
import zipfile
from pathlib import Path

HERE = Path(__file__).resolve().parent
NAME = "debctl"
TAG = "py3-none-linux_x86_64"
TIME = (1980, 1, 1, 0, 0, 0)


def _value(name):
    """The value of a key in pyproject.toml, which is a text on one line."""
    text = (HERE / "pyproject.toml").read_text(encoding="utf-8")
    return re.search(rf'^{name} = "(.*)"$', text, re.M)[1]


def _library():
    """The bytes of the shared library."""
    given = os.environ.get("DEBCTL_LIBRARY")
    if given:
        return Path(given).read_bytes()
    with tempfile.TemporaryDirectory() as folder:
        subprocess.run([HERE.parent / "libs" / "build", folder], check=True)
        return (Path(folder) / "libdebctl.so").read_bytes()


def metadata():
    """What an installed package says of itself."""
    return (
        f"Metadata-Version: 2.1\nName: {NAME}\nVersion: {_value('version')}\n"
        f"Summary: {_value('description')}\nRequires-Python: {_value('requires-python')}\n"
    )


def _files():
    """The files of the wheel, by their names, without its list of them."""
    info = f"{NAME}-{_value('version')}.dist-info"
    files = {
        f"{NAME}/{path.name}": path.read_bytes()
        for path in sorted((HERE / NAME).iterdir())
        if path.suffix == ".py" or path.name == "py.typed"
    }
    files[f"{NAME}/libdebctl.so"] = _library()
    files[f"{info}/METADATA"] = metadata().encode()
    files[f"{info}/WHEEL"] = (
        f"Wheel-Version: 1.0\nGenerator: debctl\nRoot-Is-Purelib: false\nTag: {TAG}\n".encode()
    )
    return info, files


def build_wheel(wheel_directory, config_settings=None, metadata_directory=None):
    """Builds the wheel in a folder, and returns its name."""
    info, files = _files()
    lines = []
    for name, data in files.items():
        digest = base64.urlsafe_b64encode(hashlib.sha256(data).digest()).rstrip(b"=").decode()
        lines.append(f"{name},sha256={digest},{len(data)}\n")
    files[f"{info}/RECORD"] = ("".join(lines) + f"{info}/RECORD,,\n").encode()
    wheel = f"{NAME}-{_value('version')}-{TAG}.whl"
    with zipfile.ZipFile(Path(wheel_directory) / wheel, "w", zipfile.ZIP_DEFLATED) as archive:
        for name, data in files.items():
            entry = zipfile.ZipInfo(name, TIME)
            entry.external_attr = (0o755 if name.endswith(".so") else 0o644) << 16
            entry.compress_type = zipfile.ZIP_DEFLATED
            archive.writestr(entry, data)
    return wheel

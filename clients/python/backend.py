"""Builds the wheel of this package by itself, so that `pip wheel` needs no other package and no network (PEP 517, PEP 427).

    python3 backend.py FOLDER     writes the wheel into the folder, and prints its name

The wheel's bytes depend on the sources alone: its files are in a fixed order, and have the time of $SOURCE_DATE_EPOCH or that of 1980.
They aren't compressed, since versions of zlib differ.
"""
import base64
import hashlib
import os
import sys
import time
import zipfile

HERE = os.path.dirname(os.path.abspath(__file__))
NAME, VERSION = "nrmatch", "1.0.0"
WHEEL = "Wheel-Version: 1.0\nGenerator: nrmatch\nRoot-Is-Purelib: true\nTag: py3-none-any\n"


def _metadata():
    with open(os.path.join(HERE, "README.md"), encoding="utf-8") as page:
        text = page.read()
    head = [
        "Metadata-Version: 2.1",
        f"Name: {NAME}",
        f"Version: {VERSION}",
        "Summary: Runs nrmatch and nrcheck, the residency match with a proof that it is stable",
        "License: Apache-2.0 OR MIT",
        "Requires-Python: >=3.9",
        "Description-Content-Type: text/markdown",
    ]
    return "\n".join(head) + "\n\n" + text


def _files():
    """The wheel's files with their contents."""
    folder = os.path.join(HERE, "src", NAME)
    for name in sorted(os.listdir(folder)):
        if name.endswith(".py") or name == "py.typed":
            with open(os.path.join(folder, name), "rb") as file:
                yield f"{NAME}/{name}", file.read()
    info = f"{NAME}-{VERSION}.dist-info"
    yield f"{info}/METADATA", _metadata().encode()
    yield f"{info}/WHEEL", WHEEL.encode()


def _line_of(path, content):
    digest = base64.urlsafe_b64encode(hashlib.sha256(content).digest()).rstrip(b"=").decode()
    return f"{path},sha256={digest},{len(content)}\n"


def build_wheel(wheel_directory, config_settings=None, metadata_directory=None):
    """Writes the wheel into the folder, and gives its name."""
    epoch = int(os.environ.get("SOURCE_DATE_EPOCH", "315532800"))
    date = time.gmtime(max(epoch, 315532800))[:6]
    name = f"{NAME}-{VERSION}-py3-none-any.whl"
    record = f"{NAME}-{VERSION}.dist-info/RECORD"
    files = list(_files())
    lines = "".join(_line_of(path, content) for path, content in files) + f"{record},,\n"
    with zipfile.ZipFile(os.path.join(wheel_directory, name), "w") as wheel:
        for path, content in files + [(record, lines.encode())]:
            entry = zipfile.ZipInfo(path, date)
            # Unix, on each machine.
            entry.create_system = 3
            entry.external_attr = 0o644 << 16
            wheel.writestr(entry, content)
    return name


if __name__ == "__main__":
    if len(sys.argv) != 2:
        sys.exit("usage: python3 backend.py FOLDER")
    print(build_wheel(sys.argv[1]))

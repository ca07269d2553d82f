"""Usage: wheel.py REPOSITORY EXTENSION BUILD VERSION OUT

Packs the wheel, with the same bytes each time: the time of each file is SOURCE_DATE_EPOCH.
"""

import base64
import hashlib
import os
import sys
import time
import zipfile
from pathlib import Path

PLATFORMS = ("manylinux_2_17_x86_64", "manylinux2014_x86_64")


def metadata(top, version):
    """Returns the file METADATA."""
    head = [
        "Metadata-Version: 2.1",
        "Name: sfv-proved",
        f"Version: {version}",
        "Summary: Structured Field Values for HTTP (RFC 9651), over the proved library libsfv",
        "License: MIT",
        "License-File: LICENSE",
        "Classifier: License :: OSI Approved :: MIT License",
        "Classifier: Typing :: Typed",
        "Requires-Python: >=3.9",
        "Description-Content-Type: text/markdown",
    ]
    return "\n".join(head) + "\n\n" + (top / "bindings/python/README.md").read_text()


def wheel():
    """Returns the file WHEEL."""
    tags = "".join(f"Tag: cp39-abi3-{platform}\n" for platform in PLATFORMS)
    return f"Wheel-Version: 1.0\nGenerator: release/build\nRoot-Is-Purelib: false\n{tags}"


def record(files, name):
    """Returns the file RECORD."""
    lines = []
    for path, content in files.items():
        digest = base64.urlsafe_b64encode(hashlib.sha256(content).digest()).rstrip(b"=").decode()
        lines.append(f"{path},sha256={digest},{len(content)}\n")
    return "".join(lines) + f"{name},,\n"


def contents(top, extension, build, version):
    """Returns each path in the wheel with its content."""
    package, info = top / "bindings/python/sfv", f"sfv_proved-{version}.dist-info"
    files = {f"sfv/{name}": (package / name).read_bytes() for name in ("__init__.py", "_ctypes.py", "_values.py", "py.typed")}
    files["sfv/_sfv.abi3.so"] = extension.read_bytes()
    files[f"{info}/METADATA"] = metadata(top, version).encode()
    files[f"{info}/LICENSE"] = (top / "LICENSE").read_bytes()
    files[f"{info}/BUILD"] = build.read_bytes()
    files[f"{info}/WHEEL"] = wheel().encode()
    files[f"{info}/RECORD"] = record(files, f"{info}/RECORD").encode()
    return files


def main(top, extension, build, version, out):
    when = time.gmtime(int(os.environ["SOURCE_DATE_EPOCH"]))[:6]
    name = f"sfv_proved-{version}-cp39-abi3-{'.'.join(PLATFORMS)}.whl"
    with zipfile.ZipFile(Path(out) / name, "w", zipfile.ZIP_DEFLATED, compresslevel=9) as archive:
        for path, content in contents(Path(top), Path(extension), Path(build), version).items():
            entry = zipfile.ZipInfo(path, when)
            entry.compress_type = zipfile.ZIP_DEFLATED
            entry.external_attr = (0o100755 if path.endswith(".so") else 0o100644) << 16
            entry.create_system = 3
            archive.writestr(entry, content)


if __name__ == "__main__":
    if len(sys.argv) != 6:
        sys.exit(__doc__)
    main(*sys.argv[1:])

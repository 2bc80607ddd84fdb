"""Make a wheel of the package and the shared library: python3 wheel.py LIBRARY FOLDER.

A wheel is a zip archive with three extra files (PEP 427), so no other package is needed.
"""

import base64
import hashlib
import pathlib
import re
import sys
import zipfile

HERE = pathlib.Path(__file__).resolve().parent
TAG = "py3-none-linux_x86_64"


def version():
    return re.search(r'__version__ = "(.*)"', (HERE / "mexaldor/__init__.py").read_text())[1]


def metadata(number):
    return (
        f"Metadata-Version: 2.1\nName: mexaldor\nVersion: {number}\n"
        "Summary: Exif data of pictures read, edited in place and taken out\n"
        "Requires-Python: >=3.8\nLicense: BSD-2-Clause\n"
    )


def record(files):
    lines = []
    for name, data in files.items():
        digest = base64.urlsafe_b64encode(hashlib.sha256(data).digest()).rstrip(b"=").decode()
        lines.append(f"{name},sha256={digest},{len(data)}\n")
    return "".join(lines)


def main(library, folder):
    number = version()
    own = f"mexaldor-{number}.dist-info"
    files = {f"mexaldor/{name}": (HERE / "mexaldor" / name).read_bytes() for name in ("__init__.py", "py.typed")}
    files["mexaldor/libmexaldor.so.0"] = pathlib.Path(library).read_bytes()
    files[f"{own}/METADATA"] = metadata(number).encode()
    files[f"{own}/WHEEL"] = f"Wheel-Version: 1.0\nGenerator: wheel.py\nRoot-Is-Purelib: false\nTag: {TAG}\n".encode()
    for name in ("LICENSE", "NOTICE"):
        files[f"{own}/{name}"] = (HERE.parents[1] / name).read_bytes()
    files[f"{own}/RECORD"] = (record(files) + f"{own}/RECORD,,\n").encode()
    path = pathlib.Path(folder) / f"mexaldor-{number}-{TAG}.whl"
    path.parent.mkdir(parents=True, exist_ok=True)
    with zipfile.ZipFile(path, "w", zipfile.ZIP_DEFLATED) as wheel:
        for name, data in files.items():
            wheel.writestr(name, data)
    print(path)


if __name__ == "__main__":
    main(*sys.argv[1:])

"""Makes the wheel and the source distribution, as pip asks for them (PEP 517), with Python alone and no network.

    pip install ./bindings/python             or
    python3 bindings/python/backend.py DIR    both into a folder

Both hold libbunjelav.so, so they are for Linux on x86-64; the calls go by ctypes, so any Python 3 takes the wheel. The
same files give the same octets.
"""
import base64
import gzip
import hashlib
import io
import os
import re
import sys
import tarfile
import zipfile
from pathlib import Path

HERE = Path(__file__).resolve().parent
LIBRARY = "libbunjelav.so"
TAG = "py3-none-linux_x86_64"
# (a wheel's oldest date)
DATE = (1980, 1, 1, 0, 0, 0)


def said(key: str) -> str:
    """What pyproject.toml says. (Python 3.9 has no reader of it.)"""
    return re.search(rf'^{key} = "(.*)"$', (HERE / "pyproject.toml").read_text(), re.M)[1]


NAME, VERSION = said("name"), said("version")
METADATA = f"""Metadata-Version: 2.1
Name: {NAME}
Version: {VERSION}
Summary: {said("description")}
Requires-Python: {said("requires-python")}
"""


def library() -> bytes:
    """From where BUNJELAV_LIBRARY says, or from within the package, or as the package finds it in a checkout."""
    named = os.environ.get("BUNJELAV_LIBRARY")
    places = [HERE / NAME, HERE.parent / "c" / "out", HERE.parent.parent / "dist" / "x86_64-linux"]
    for place in [Path(named)] if named else [it / LIBRARY for it in places]:
        if place.is_file():
            return place.read_bytes()
    raise SystemExit(f"there is no {LIBRARY}: BUNJELAV_LIBRARY says where it lies, or bindings/c/build makes it")


def package() -> dict[str, bytes]:
    """The package's files."""
    files = {f"{NAME}/{it.name}": it.read_bytes() for it in sorted((HERE / NAME).iterdir())
             if it.suffix in (".py", ".typed")}
    return files | {f"{NAME}/{LIBRARY}": library()}


def build_wheel(wheel_directory, config_settings=None, metadata_directory=None) -> str:
    about = f"{NAME}-{VERSION}.dist-info"
    wheel = f"Wheel-Version: 1.0\nGenerator: {NAME}\nRoot-Is-Purelib: false\nTag: {TAG}\n"
    files = package() | {f"{about}/METADATA": METADATA.encode(), f"{about}/WHEEL": wheel.encode()}
    lines = []
    for name, octets in files.items():
        digest = base64.urlsafe_b64encode(hashlib.sha256(octets).digest()).rstrip(b"=").decode()
        lines.append(f"{name},sha256={digest},{len(octets)}\n")
    files[f"{about}/RECORD"] = ("".join(lines) + f"{about}/RECORD,,\n").encode()
    made = f"{NAME}-{VERSION}-{TAG}.whl"
    with zipfile.ZipFile(Path(wheel_directory) / made, "w", zipfile.ZIP_DEFLATED) as archive:
        for name, octets in files.items():
            entry = zipfile.ZipInfo(name, DATE)
            entry.external_attr, entry.compress_type = 0o644 << 16, zipfile.ZIP_DEFLATED
            archive.writestr(entry, octets)
    return made


def build_sdist(sdist_directory, config_settings=None) -> str:
    top = f"{NAME}-{VERSION}"
    files = package() | {it: (HERE / it).read_bytes() for it in ("backend.py", "pyproject.toml")}
    files["PKG-INFO"] = METADATA.encode()
    with open(Path(sdist_directory) / f"{top}.tar.gz", "wb") as file:
        with gzip.GzipFile("", "wb", fileobj=file, mtime=0) as packed:
            with tarfile.open(fileobj=packed, mode="w", format=tarfile.PAX_FORMAT) as archive:
                for name, octets in files.items():
                    entry = tarfile.TarInfo(f"{top}/{name}")
                    entry.size, entry.mode = len(octets), 0o644
                    archive.addfile(entry, io.BytesIO(octets))
    return f"{top}.tar.gz"


if __name__ == "__main__":
    if len(sys.argv) != 2:
        sys.exit(__doc__)
    os.makedirs(sys.argv[1], exist_ok=True)
    for build in (build_wheel, build_sdist):
        print(build(sys.argv[1]))

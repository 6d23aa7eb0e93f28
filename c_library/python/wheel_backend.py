# SPDX-FileCopyrightText: 2026 The etherparse_transport developers
# SPDX-License-Identifier: MIT OR Apache-2.0
"""Builds a wheel of etherparse_transport.py with the shared library in it (PEP 517), by the standard library alone.

    pip wheel --no-index FOLDER                  # FOLDER contains this file
    python3 wheel_backend.py DIR                 # the same wheel, in DIR

The environment variable ETHERPARSE_TRANSPORT_LIBRARY contains the path of the shared library. If it is not set, the library is in the
folder `lib` next to this folder, as in an unpacked archive. The same files give the same wheel, byte for byte. The times in it are
SOURCE_DATE_EPOCH, or else the first of 1980.
"""
import base64
import hashlib
import os
import pathlib
import re
import sys
import time
import zipfile

HERE = pathlib.Path(__file__).resolve().parent
PACKAGE = "etherparse_transport"
# The names of processors in tags, by the number in the header of a file (ELF).
PROCESSORS = {62: "x86_64", 183: "aarch64"}
# The property of a note in a file that contains the levels of x86-64 that it needs. The first of them is the baseline.
NEEDED_LEVELS = re.compile(rb"\x02\x80\x00\xc0\x04\0\0\0(.)", re.S)
# From this version of glibc on, the loader reads the note.
READS_NOTES = (2, 33)


class UnsupportedOperation(Exception):
    """This backend builds no source distribution."""


def project(name):
    """A text of the table `project` in pyproject.toml, which Python reads only from 3.11 on."""
    return re.search(rf'^{name} = "(.*)"$', (HERE / "pyproject.toml").read_text(), re.M)[1]


def classifiers():
    return re.findall(r'^    "(.*)",$', (HERE / "pyproject.toml").read_text(), re.M)


def interface():
    """The part of the library's version that has to match, which ends its name."""
    return re.search(r'^_INTERFACE = "(.*)"$', (HERE / f"{PACKAGE}.py").read_text(), re.M)[1]


def shared_library():
    name = f"lib{PACKAGE}.so.{interface()}"
    path = pathlib.Path(os.environ.get("ETHERPARSE_TRANSPORT_LIBRARY") or HERE.parent / "lib" / name)
    if not path.is_file():
        raise SystemExit(f"there is no {path}: set ETHERPARSE_TRANSPORT_LIBRARY to the path of the shared library")
    return name, path.read_bytes()


def platform(library):
    """The tag of the systems that the library is for: the first version of glibc that has all that it needs, and the processor."""
    versions = [(int(major), int(minor)) for major, minor in re.findall(rb"GLIBC_(\d+)\.(\d+)", library)]
    note = NEEDED_LEVELS.search(library)
    if note and note[1][0] > 1:
        versions.append(READS_NOTES)
    # No tag has a version before 2.5.
    major, minor = max([(2, 5), *versions])
    return f"manylinux_{major}_{minor}_{PROCESSORS[int.from_bytes(library[18:20], 'little')]}"


def licences():
    """The licences are below `share` in an unpacked archive, and above this folder in the repository."""
    for folder in (HERE.parent / "share" / "doc" / PACKAGE, HERE.parent.parent):
        if found := sorted(folder.glob("LICENSE-*")):
            return found
    raise SystemExit("there are no licences")


def metadata(files):
    rows = [
        "Metadata-Version: 2.1", f"Name: {project('name')}", f"Version: {project('version')}", f"Summary: {project('description')}",
        "License: MIT OR Apache-2.0", f"Requires-Python: {project('requires-python')}",
        *(f"Classifier: {it}" for it in classifiers()), *(f"License-File: {file.name}" for file in files),
    ]
    module = (HERE / f"{PACKAGE}.py").read_text()
    return "\n".join(rows) + "\n\n" + re.search(r'^"""(.*?)"""$', module, re.M | re.S)[1]


def contents():
    """The files of the wheel by their names, and its tag."""
    name, library = shared_library()
    tag = f"py3-none-{platform(library)}"
    info = f"{PACKAGE}-{project('version')}.dist-info"
    files = {
        f"{PACKAGE}/__init__.py": (HERE / f"{PACKAGE}.py").read_bytes(), f"{PACKAGE}/py.typed": b"", f"{PACKAGE}/{name}": library,
        f"{info}/METADATA": metadata(licences()).encode(),
        f"{info}/WHEEL": f"Wheel-Version: 1.0\nGenerator: wheel_backend\nRoot-Is-Purelib: false\nTag: {tag}\n".encode(),
        **{f"{info}/licenses/{file.name}": file.read_bytes() for file in licences()},
    }
    rows = [f"{name},sha256={digest(data)},{len(data)}\n" for name, data in files.items()]
    files[f"{info}/RECORD"] = "".join([*rows, f"{info}/RECORD,,\n"]).encode()
    return files, tag


def digest(data):
    return base64.urlsafe_b64encode(hashlib.sha256(data).digest()).rstrip(b"=").decode()


def build_wheel(wheel_directory, config_settings=None, metadata_directory=None):
    files, tag = contents()
    wheel = f"{PACKAGE}-{project('version')}-{tag}.whl"
    # An archive of this kind has no times before 1980.
    moment = time.gmtime(max(int(os.environ.get("SOURCE_DATE_EPOCH", 0)), 315532800))[:6]
    with zipfile.ZipFile(pathlib.Path(wheel_directory) / wheel, "w", zipfile.ZIP_DEFLATED) as archive:
        for name, data in files.items():
            entry = zipfile.ZipInfo(name, moment)
            entry.compress_type = zipfile.ZIP_DEFLATED
            entry.external_attr = 0o100644 << 16
            archive.writestr(entry, data)
    return wheel


def build_sdist(sdist_directory, config_settings=None):
    raise UnsupportedOperation("c_library/release --source packs the sources")


if __name__ == "__main__":
    if len(sys.argv) != 2:
        sys.exit("usage: wheel_backend.py DIR")
    print(build_wheel(sys.argv[1]))

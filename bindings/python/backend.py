"""What pip calls to install the module: a wheel of calstwid.py and, beside it, the library that was built."""
import base64
import hashlib
import os
import re
import zipfile

HERE = os.path.dirname(os.path.realpath(__file__))
LIBRARY = "libcalstwid.so"


def _library():
    named = os.environ.get("CALSTWID_LIB") or os.path.join(HERE, "..", "..", "target", "lib")
    path = os.path.join(named, LIBRARY) if os.path.isdir(named) else named
    if not os.path.isfile(path):
        raise SystemExit(f"calstwid: {os.path.normpath(path)} is not there: run tools/library/build, or set CALSTWID_LIB to the folder that has {LIBRARY}")
    return path


def _read(path):
    with open(path, "rb") as file:
        return file.read()


def _project(key):
    return re.search(rf'^{key} = "([^"]*)"$', _read(os.path.join(HERE, "pyproject.toml")).decode(), re.M)[1]


def _wheel(folder, files, tag):
    name, version = _project("name"), _project("version")
    info = f"{name}-{version}.dist-info"
    metadata = f"Metadata-Version: 2.1\nName: {name}\nVersion: {version}\nSummary: {_project('description')}\nRequires-Python: {_project('requires-python')}\n"
    kind = f"Wheel-Version: 1.0\nGenerator: calstwid\nRoot-Is-Purelib: {'true' if tag.endswith('any') else 'false'}\nTag: {tag}\n"
    files = {**files, f"{info}/METADATA": metadata.encode(), f"{info}/WHEEL": kind.encode()}
    record = ""
    for path, data in files.items():
        total = base64.urlsafe_b64encode(hashlib.sha256(data).digest()).rstrip(b"=").decode()
        record += f"{path},sha256={total},{len(data)}\n"
    files[f"{info}/RECORD"] = (record + f"{info}/RECORD,,\n").encode()
    wheel = f"{name}-{version}-{tag}.whl"
    with zipfile.ZipFile(os.path.join(folder, wheel), "w", zipfile.ZIP_DEFLATED) as archive:
        for path, data in files.items():
            archive.writestr(path, data)
    return wheel


def build_wheel(wheel_directory, config_settings=None, metadata_directory=None):
    files = {"calstwid.py": _read(os.path.join(HERE, "calstwid.py")), LIBRARY: _read(_library())}
    return _wheel(wheel_directory, files, "py3-none-linux_x86_64")


def build_editable(wheel_directory, config_settings=None, metadata_directory=None):
    """For pip install -e: the module is used where it stands, with the clone's library."""
    return _wheel(wheel_directory, {"calstwid.pth": (HERE + "\n").encode()}, "py3-none-any")

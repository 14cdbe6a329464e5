"""Makes the wheel of this package and its source archive, for pip and other front ends (PEP 517). It needs only the standard library, so nothing is downloaded.

The metadata are those of pyproject.toml, and the version is that of witc/__init__.py. Two runs make the same bytes.
"""

import ast
import base64
import gzip
import hashlib
import io
import os
import re
import tarfile
import zipfile

PACKAGE = ("witc/__init__.py", "witc/py.typed")
SOURCES = (*PACKAGE, "LICENSE", "README.md", "backend.py", "pyproject.toml")
WHEEL = "Wheel-Version: 1.0\nGenerator: witc\nRoot-Is-Purelib: true\nTag: py3-none-any\n"


def read(path):
    with open(path, "rb") as file:
        return file.read()


def project():
    """The table `project`. Its values are texts and lists of texts, which TOML writes as Python does."""
    table = read("pyproject.toml").decode().partition("[project]\n")[2].partition("\n[")[0]
    found = {name: ast.literal_eval(value) for name, value in re.findall(r"^(\S+) = (.+)$", table, re.M)}
    found["version"] = re.search(r'^__version__ = "(.+)"$', read("witc/__init__.py").decode(), re.M)[1]
    return found


def metadata():
    it = project()
    lines = ["Metadata-Version: 2.4", f"Name: {it['name']}", f"Version: {it['version']}", f"Summary: {it['description']}"]
    lines += [f"Keywords: {','.join(it['keywords'])}", f"License-Expression: {it['license']}", f"Requires-Python: {it['requires-python']}"]
    lines += [f"License-File: {path}" for path in it["license-files"]]
    lines += [f"Classifier: {word}" for word in it["classifiers"]]
    return "\n".join([*lines, "Description-Content-Type: text/markdown", "", read(it["readme"]).decode()])


def stem():
    return f"witc-{project()['version']}"


def build_wheel(wheel_directory, config_settings=None, metadata_directory=None):
    info = f"{stem()}.dist-info"
    files = {path: read(path) for path in PACKAGE}
    files[f"{info}/METADATA"] = metadata().encode()
    files[f"{info}/WHEEL"] = WHEEL.encode()
    files[f"{info}/licenses/LICENSE"] = read("LICENSE")
    record = ""
    for path, data in files.items():
        digest = base64.urlsafe_b64encode(hashlib.sha256(data).digest()).rstrip(b"=").decode()
        record += f"{path},sha256={digest},{len(data)}\n"
    files[f"{info}/RECORD"] = f"{record}{info}/RECORD,,\n".encode()
    name = f"{stem()}-py3-none-any.whl"
    with zipfile.ZipFile(os.path.join(wheel_directory, name), "w", zipfile.ZIP_DEFLATED) as wheel:
        for path, data in files.items():
            entry = zipfile.ZipInfo(path)
            entry.external_attr = 0o644 << 16
            wheel.writestr(entry, data, zipfile.ZIP_DEFLATED)
    return name


def build_sdist(sdist_directory, config_settings=None):
    files = {path: read(path) for path in SOURCES}
    files["PKG-INFO"] = metadata().encode()
    packed = io.BytesIO()
    with tarfile.open(fileobj=packed, mode="w", format=tarfile.PAX_FORMAT) as archive:
        for path, data in files.items():
            entry = tarfile.TarInfo(f"{stem()}/{path}")
            entry.size = len(data)
            archive.addfile(entry, io.BytesIO(data))
    name = f"{stem()}.tar.gz"
    with open(os.path.join(sdist_directory, name), "wb") as file:
        file.write(gzip.compress(packed.getvalue(), mtime=0))
    return name

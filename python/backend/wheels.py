"""Builds the wheel of the module, by the standard library alone: the build backend of pyproject.toml (PEP 517).

The wheel has the module `atgis` as a package, so that py.typed can stand beside it (PEP 561), and each other module of
the folder as it is. Its bytes are those of the files: times are that of SOURCE_DATE_EPOCH, or 1980.
"""
import base64
import gzip
import hashlib
import io
import os
import re
import tarfile
import time
import zipfile
from typing import Dict, List, Optional, Tuple

HERE = os.path.dirname(os.path.dirname(os.path.abspath(__file__)))
EARLIEST = 315532800  # 1980, the first year that an archive of zip can tell


def read(*parts: str) -> bytes:
    """The bytes of a file of the folder."""
    with open(os.path.join(HERE, *parts), "rb") as file:
        return file.read()


def project() -> Dict[str, str]:
    """The members of the table [project] that are strings."""
    table = read("pyproject.toml").decode("utf-8").split("[project]\n")[1].split("\n[")[0]
    return dict(re.findall(r'^([\w-]+) = "(.*)"$', table, re.MULTILINE))


def extras() -> List[Tuple[str, str]]:
    """The optional dependencies: a name, and what it asks for."""
    table = read("pyproject.toml").decode("utf-8").split("[project.optional-dependencies]\n")[1].split("\n[")[0]
    rows = re.findall(r"^([\w-]+) = \[(.*)\]$", table, re.MULTILINE)
    return [(name, one) for name, ones in rows for one in re.findall(r'"([^"]*)"', ones)]


def metadata() -> bytes:
    """The file METADATA, which tells what is installed."""
    own = project()
    lines = ["Metadata-Version: 2.1", f"Name: {own['name']}", f"Version: {own['version']}",
             f"Summary: {own['description']}", f"Requires-Python: {own['requires-python']}"]
    for name, one in extras():
        lines += [f"Provides-Extra: {name}", f'Requires-Dist: {one}; extra == "{name}"']
    return "\n".join([*lines, ""]).encode("utf-8")


def modules() -> Dict[str, bytes]:
    """The files that are installed, by their places."""
    found = {"atgis/__init__.py": read("atgis.py"), "atgis/py.typed": read("py.typed")}
    others = sorted(name for name in os.listdir(HERE) if name.endswith(".py") and name != "atgis.py")
    return {**found, **{name: read(name) for name in others}}


def moment() -> int:
    """The time of all files."""
    return max(int(os.environ.get("SOURCE_DATE_EPOCH", EARLIEST)), EARLIEST)


def stem() -> str:
    """The name and the version, as names of files have them."""
    return f"{project()['name']}-{project()['version']}"


def write_wheel(folder: str, files: Dict[str, bytes]) -> str:
    """Writes a wheel that has these files, and returns its name."""
    info = f"{stem()}.dist-info"
    tags = "Wheel-Version: 1.0\nGenerator: atgis\nRoot-Is-Purelib: true\nTag: py3-none-any\n"
    files = {**files, f"{info}/METADATA": metadata(), f"{info}/WHEEL": tags.encode("ascii")}
    rows = [f"{name},sha256={base64.urlsafe_b64encode(hashlib.sha256(data).digest()).rstrip(b'=').decode()},{len(data)}"
            for name, data in files.items()]
    files[f"{info}/RECORD"] = "\n".join([*rows, f"{info}/RECORD,,", ""]).encode("utf-8")
    name = f"{stem()}-py3-none-any.whl"
    with zipfile.ZipFile(os.path.join(folder, name), "w", zipfile.ZIP_DEFLATED) as wheel:
        for place, data in files.items():
            entry = zipfile.ZipInfo(place, time.gmtime(moment())[:6])
            entry.external_attr = 0o100644 << 16
            entry.compress_type = zipfile.ZIP_DEFLATED
            wheel.writestr(entry, data)
    return name


def build_wheel(wheel_directory: str, config_settings: Optional[dict] = None, metadata_directory: Optional[str] = None):
    """Builds the wheel that `pip install` asks for."""
    return write_wheel(wheel_directory, modules())


def build_editable(wheel_directory: str, config_settings: Optional[dict] = None,
                   metadata_directory: Optional[str] = None):
    """Builds the wheel that `pip install --editable` asks for: one that names the folder."""
    return write_wheel(wheel_directory, {"atgis.pth": f"{HERE}\n".encode("utf-8")})


def build_sdist(sdist_directory: str, config_settings: Optional[dict] = None):
    """Builds the archive of the sources."""
    others = sorted(name for name in os.listdir(HERE) if name.endswith(".py"))
    places = ["pyproject.toml", "py.typed", "backend/wheels.py", *others]
    files = {**{place: read(place) for place in places}, "PKG-INFO": metadata()}
    name = f"{stem()}.tar.gz"
    with open(os.path.join(sdist_directory, name), "wb") as file, \
            gzip.GzipFile("", "wb", 9, file, moment()) as packed, \
            tarfile.open(fileobj=packed, mode="w", format=tarfile.PAX_FORMAT) as archive:
        for place, data in files.items():
            entry = tarfile.TarInfo(f"{stem()}/{place}")
            entry.size, entry.mtime, entry.mode = len(data), moment(), 0o644
            archive.addfile(entry, io.BytesIO(data))
    return name

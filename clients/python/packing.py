"""Builds the wheel of this folder, by the standard library alone: `pip install clients/python` calls it, and needs no network."""

import base64
import hashlib
import io
import pathlib
import re
import tarfile
import zipfile

HERE = pathlib.Path(__file__).resolve().parent
VERSION = re.search(r'^__version__ = "(.+?)"', (HERE / "richd/__init__.py").read_text(), re.MULTILINE)[1]
NAME = f"richd-{VERSION}"
METADATA = f"""Metadata-Version: 2.1
Name: richd
Version: {VERSION}
Summary: A client of richd, a durable server for rich text that many writers edit at once
Requires-Python: >=3.9
Description-Content-Type: text/markdown

{(HERE / "README.md").read_text()}"""
WHEEL = "Wheel-Version: 1.0\nGenerator: packing\nRoot-Is-Purelib: true\nTag: py3-none-any\n"
DATE = (1980, 1, 1, 0, 0, 0)  # so that the same files make the same wheel


def build_wheel(wheel_directory, config_settings=None, metadata_directory=None):
    return _wheel(wheel_directory, {f"richd/{path.name}": path.read_bytes() for path in _modules()})


def build_editable(wheel_directory, config_settings=None, metadata_directory=None):
    """For `pip install --editable`: a wheel that says where this folder is."""
    return _wheel(wheel_directory, {"richd.pth": f"{HERE}\n".encode()})


def build_sdist(sdist_directory, config_settings=None):
    files = {**{f"richd/{path.name}": path for path in _modules()}, **{name: HERE / name for name in ("README.md", "packing.py", "pyproject.toml")}}
    with tarfile.open(pathlib.Path(sdist_directory, f"{NAME}.tar.gz"), "w:gz") as archive:
        for name, path in files.items():
            archive.add(path, f"{NAME}/{name}")
        info = tarfile.TarInfo(f"{NAME}/PKG-INFO")
        info.size = len(METADATA.encode())
        archive.addfile(info, io.BytesIO(METADATA.encode()))
    return f"{NAME}.tar.gz"


def _modules():
    return sorted(path for path in (HERE / "richd").iterdir() if path.suffix == ".py" or path.name == "py.typed")


def _wheel(folder, files):
    info = f"{NAME}.dist-info"
    files = {**files, f"{info}/METADATA": METADATA.encode(), f"{info}/WHEEL": WHEEL.encode()}
    rows = [f"{name},sha256={_digest(content)},{len(content)}" for name, content in files.items()] + [f"{info}/RECORD,,"]
    files[f"{info}/RECORD"] = ("\n".join(rows) + "\n").encode()
    with zipfile.ZipFile(pathlib.Path(folder, f"{NAME}-py3-none-any.whl"), "w", zipfile.ZIP_DEFLATED) as archive:
        for name, content in files.items():
            archive.writestr(zipfile.ZipInfo(name, DATE), content, zipfile.ZIP_DEFLATED)
    return f"{NAME}-py3-none-any.whl"


def _digest(content):
    return base64.urlsafe_b64encode(hashlib.sha256(content).digest()).decode().rstrip("=")

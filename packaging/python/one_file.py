"""Builds the wheel of the module: one file and what pip wants to know of it. It needs nothing but Python, so `pip install` needs no network."""
import base64
import hashlib
import re
import zipfile

_TAG = "py3-none-any"


def _told():
    with open("pyproject.toml", encoding="utf-8") as it:
        text = it.read()
    return {name: re.search(rf'^{name} = "(.*)"$', text, re.M)[1] for name in ("name", "version", "description", "requires-python")}


def _files(told, folder):
    with open(told["name"] + ".py", "rb") as it:
        yield told["name"] + ".py", it.read()
    metadata = ["Metadata-Version: 2.1", f"Name: {told['name']}", f"Version: {told['version']}", f"Summary: {told['description']}",
                f"Requires-Python: {told['requires-python']}", "License: MIT", ""]
    yield folder + "/METADATA", "\n".join(metadata).encode()
    yield folder + "/WHEEL", f"Wheel-Version: 1.0\nGenerator: one_file\nRoot-Is-Purelib: true\nTag: {_TAG}\n".encode()


def build_wheel(wheel_directory, config_settings=None, metadata_directory=None):
    told = _told()
    folder = f"{told['name']}-{told['version']}.dist-info"
    name, rows = f"{told['name']}-{told['version']}-{_TAG}.whl", []
    with zipfile.ZipFile(f"{wheel_directory}/{name}", "w", zipfile.ZIP_DEFLATED) as wheel:
        for path, content in _files(told, folder):
            wheel.writestr(zipfile.ZipInfo(path, (2020, 1, 1, 0, 0, 0)), content)
            digest = base64.urlsafe_b64encode(hashlib.sha256(content).digest()).rstrip(b"=").decode()
            rows.append(f"{path},sha256={digest},{len(content)}\n")
        wheel.writestr(zipfile.ZipInfo(folder + "/RECORD", (2020, 1, 1, 0, 0, 0)), "".join(rows) + folder + "/RECORD,,\n")
    return name


def build_sdist(sdist_directory, config_settings=None):
    raise NotImplementedError("the sources are the repository's")

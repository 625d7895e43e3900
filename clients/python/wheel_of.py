#!/usr/bin/env python3
"""Makes the wheel, for pip and by itself: ./wheel_of.py FOLDER. It needs nothing but Python."""
import base64
import hashlib
import pathlib
import sys
import tomllib
import zipfile

HERE = pathlib.Path(__file__).resolve().parent


def build_wheel(folder, config_settings=None, metadata_directory=None):
    """Writes the wheel into the folder, and gives its name (PEP 517). The same files give the same bytes."""
    project = tomllib.loads((HERE / "pyproject.toml").read_text())["project"]
    name = f"{project['name']}-{project['version']}"
    files = {f"floorhub/{it.name}": it.read_text() for it in sorted((HERE / "floorhub").glob("*.py"))}
    files["floorhub/py.typed"] = ""
    files[f"{name}.dist-info/METADATA"] = (
        f"Metadata-Version: 2.1\nName: {project['name']}\nVersion: {project['version']}\n"
        f"Summary: {project['description']}\nRequires-Python: {project['requires-python']}\n")
    files[f"{name}.dist-info/WHEEL"] = "Wheel-Version: 1.0\nGenerator: wheel_of\nRoot-Is-Purelib: true\nTag: py3-none-any\n"
    record = f"{name}.dist-info/RECORD"
    files[record] = "".join(f"{path},sha256={sum_of(text)},{len(text.encode())}\n" for path, text in files.items()) + f"{record},,\n"
    with zipfile.ZipFile(pathlib.Path(folder) / f"{name}-py3-none-any.whl", "w", zipfile.ZIP_DEFLATED) as wheel:
        for path, text in files.items():
            wheel.writestr(zipfile.ZipInfo(path), text)
    return f"{name}-py3-none-any.whl"


def sum_of(text):
    return base64.urlsafe_b64encode(hashlib.sha256(text.encode()).digest()).rstrip(b"=").decode()


if __name__ == "__main__":
    if len(sys.argv) != 2:
        sys.exit(__doc__)
    print(build_wheel(sys.argv[1]))

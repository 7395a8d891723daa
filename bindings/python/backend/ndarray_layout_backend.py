"""Makes the wheel of `ndarray_layout`: the build backend that pip and `python -m build --wheel` call.

The wheel holds the package, with the module `_native` that `build_native` makes over the library that `bindings/c/build` makes by cargo. With
NDARRAY_LAYOUT_PROVED=1 in the environment, or the setting `proved`, that is over the proved library of `bindings/c/proved`, which `build --proved`
makes where the one that is there isn't of the sources as they are. With the setting `checked`, which `build_wheel` of this
repository gives, it is a release: it holds the record of the whole check as `checked.txt`, beside METADATA, and is refused where
the check hasn't passed on what is committed.
The tarball holds all that pip makes the wheel of.
"""

from __future__ import annotations

import base64
import hashlib
import os
import re
import subprocess
import sys
import sysconfig
import tempfile
import zipfile
from pathlib import Path
from typing import Any, Iterator, Mapping, Optional

HERE = Path(__file__).resolve().parent.parent
TOP = HERE.parent.parent
NATIVE = "_native.abi3.so"
SOURCES = "bindings/c bindings/python rust Cargo.toml Cargo.lock proved.txt LICENSE* NOTICE".split()
MADE = (1980, 1, 1, 0, 0, 0)  # (the first moment that a zip file can state: the same files make the same wheel)

Settings = Optional[Mapping[str, Any]]
Files = list[tuple[str, bytes]]


def build_wheel(
    wheel_directory: str, config_settings: Settings = None, metadata_directory: Optional[str] = None
) -> str:
    """Makes the wheel in a folder, and returns its name."""
    record = _record() if "checked" in (config_settings or {}) else []
    files = [(f"ndarray_layout/{path.name}", path.read_bytes()) for path in _modules()]
    with tempfile.TemporaryDirectory() as folder:
        _build_native(*(["--proved"] if _is_proved(config_settings) else []), folder)
        files.append((f"ndarray_layout/{NATIVE}", Path(folder, NATIVE).read_bytes()))
    return _write_wheel(wheel_directory, files, record)


def build_editable(
    wheel_directory: str, config_settings: Settings = None, metadata_directory: Optional[str] = None
) -> str:
    """Makes a wheel that leads to this folder, and builds what the package takes from there."""
    _build_native()
    return _write_wheel(wheel_directory, [("ndarray_layout.pth", f"{HERE}\n".encode())], [])


def build_sdist(sdist_directory: str, config_settings: Settings = None) -> str:
    """Makes the tarball of what is committed, in a folder, and returns its name. pip builds what it holds by cargo."""
    record = _record() if "checked" in (config_settings or {}) else []
    name = f"ndarray_layout-{version()}"
    stated = (HERE / "pyproject.toml").read_text().replace('path = ["backend"]', 'path = ["bindings/python/backend"]')
    added = ("pyproject.toml", stated), ("PKG-INFO", _metadata(_licenses())), *((path, text.decode()) for path, text in record)
    words = ["git", "archive", f"--prefix={name}/", "-o", str(Path(sdist_directory).resolve() / f"{name}.tar.gz")]
    words += [f"--add-virtual-file={name}/{path}:{text}" for path, text in added]
    subprocess.run([*words, "HEAD", "--", *SOURCES], cwd=TOP, check=True)
    return f"{name}.tar.gz"


def _is_proved(settings: Settings) -> bool:
    return "proved" in (settings or {}) or os.environ.get("NDARRAY_LAYOUT_PROVED", "0") not in ("", "0")


def _record() -> Files:
    """The record of the whole check, where it has passed on what is committed, and nothing else stands here."""
    record = subprocess.run([TOP / "checks/record.py", "--release"], stdout=subprocess.PIPE)
    if record.returncode != 0 or subprocess.run([TOP / "rust/erase", "--check"], stdout=sys.stderr).returncode != 0:
        raise SystemExit("no wheel is made")
    return [("checked.txt", record.stdout)]


def _build_native(*words: str) -> None:
    """Makes the module, in a folder or in the package."""
    if not (TOP / "bindings" / "c" / "build").exists():
        raise FileNotFoundError(f"no {TOP}/bindings/c/build: the wheel is made from a clone, by pip 21.3 or later")
    python = {**os.environ, "PYTHON": sys.executable}
    if subprocess.run([HERE / "build_native", *words], env=python, stdout=sys.stderr).returncode != 0:
        raise SystemExit("the module can't be made; what it needs is said above")


def _modules() -> list[Path]:
    package = HERE / "ndarray_layout"
    return sorted([*package.glob("*.py"), *package.glob("*.pyi"), package / "py.typed"])


def version() -> str:
    """The version of `Cargo.toml`, which is the package's too."""
    found = re.search(r'^version = "(.*)"$', (TOP / "Cargo.toml").read_text(), re.MULTILINE)
    stated = re.search(r'^__version__ = "(.*)"$', (HERE / "ndarray_layout" / "__init__.py").read_text(), re.MULTILINE)
    if not found or not stated or found[1] != stated[1]:
        raise ValueError("the versions of Cargo.toml and ndarray_layout/__init__.py are not the same")
    return found[1]


def _write_wheel(folder: str, files: Files, stated: Files) -> str:
    tag = f"cp311-abi3-{sysconfig.get_platform().replace('-', '_').replace('.', '_')}"
    name = f"ndarray_layout-{version()}-{tag}.whl"
    info = f"ndarray_layout-{version()}.dist-info"
    files = [*files, *((f"{info}/{file}", content) for file, content in [*_info(tag), *stated])]
    record = "".join(f"{path},sha256={_checksum(content)},{len(content)}\n" for path, content in files)
    with zipfile.ZipFile(Path(folder) / name, "w", zipfile.ZIP_DEFLATED) as wheel:
        for path, content in [*files, (f"{info}/RECORD", f"{record}{info}/RECORD,,\n".encode())]:
            entry = zipfile.ZipInfo(path, MADE)
            entry.external_attr = (0o755 if ".so" in path else 0o644) << 16
            wheel.writestr(entry, content, zipfile.ZIP_DEFLATED)
    return name


def _checksum(content: bytes) -> str:
    return base64.urlsafe_b64encode(hashlib.sha256(content).digest()).decode().rstrip("=")


def _info(tag: str) -> Iterator[tuple[str, bytes]]:
    """The files that say what is in the wheel."""
    yield "METADATA", _metadata(_licenses()).encode()
    stated = "Wheel-Version: 1.0", "Generator: ndarray_layout_backend", "Root-Is-Purelib: false", f"Tag: {tag}"
    yield "WHEEL", "".join(f"{line}\n" for line in stated).encode()
    for path in _licenses():
        yield f"licenses/{path.name}", path.read_bytes()


def _licenses() -> list[Path]:
    return sorted([*TOP.glob("LICENSE*"), TOP / "NOTICE"])


def _metadata(licenses: list[Path]) -> str:
    """What `pyproject.toml` states, and `README.md` as its description."""
    stated = (HERE / "pyproject.toml").read_text()
    listed = re.findall(r'^    "(.* :: .*)",$', stated, re.MULTILINE)
    urls = re.findall(r'^(\w+) = "(https://.*)"$', stated, re.MULTILINE)

    def field(name: str) -> str:
        return str(re.findall(rf'^{name} = .*?"(.*)"', stated, re.MULTILINE)[0])

    lines = [
        "Metadata-Version: 2.1",
        f"Name: {field('name')}",
        f"Version: {version()}",
        f"Summary: {field('description')}",
        f"License: {field('license')}",
        f"Requires-Python: {field('requires-python')}",
        *(f"Classifier: {line}" for line in listed),
        *(f"Project-URL: {name}, {url}" for name, url in urls),
        *(f"License-File: {path.name}" for path in licenses),
        "Description-Content-Type: text/markdown",
    ]
    return "\n".join(lines) + f"\n\n{(HERE / 'README.md').read_text()}"

"""The build backend of the package psmax (PEP 517), which pip calls. It writes a wheel with the released programs
inside, or an archive of the sources that a wheel is made of. It needs no other package and leaves nothing in the tree.

python3 python/packing.py FOLDER writes the wheel into FOLDER."""
import base64
import hashlib
import io
import pathlib
import re
import sys
import tarfile
import tomllib
import zipfile
from collections.abc import Iterator, Mapping, Sequence
from typing import Any

TOP = pathlib.Path(__file__).resolve().parent.parent
TAG = "py3-none-manylinux_2_34_x86_64"  # the programs need glibc 2.34
PROGRAMS = ("psmax", "psprove")  # of release/
KINDS = (".py", ".html", ".css", ".js", ".json", ".typed")  # of files that are part of the package
SOURCES = ("pyproject.toml", "README.md", "python/packing.py", "release/psmax", "release/psprove")
WHEEL = f"Wheel-Version: 1.0\nGenerator: psmax\nRoot-Is-Purelib: false\nTag: {TAG}\n"
BEGINNING = (1980, 1, 1, 0, 0, 0)  # of time in an archive, so that the same sources give the same bytes

Settings = Mapping[str, object] | None  # what pip hands on from its command line, which says nothing here


def version() -> str:
    found = re.search(r'^__version__ = "(.+?)"', (TOP / "python/psmax/__init__.py").read_text(), re.M)
    if found is None:
        raise SystemExit("python/psmax/__init__.py says no version")
    return found[1]


def stated() -> dict[str, Any]:
    """What pyproject.toml says of the package."""
    with open(TOP / "pyproject.toml", "rb") as file:
        found: dict[str, Any] = tomllib.load(file)["project"]
    return found


def metadata() -> str:
    """What pip knows of the package, with the README as its long description."""
    project = stated()
    heads = {"Metadata-Version": "2.1", "Name": project["name"], "Version": version(),
             "Summary": project["description"],
             "Author": ", ".join(one["name"] for one in project["authors"]), "Keywords": ",".join(project["keywords"]),
             "Requires-Python": project["requires-python"], "Description-Content-Type": "text/markdown"}
    lines = [f"{head}: {text}\n" for head, text in heads.items()]
    lines += [f"Classifier: {text}\n" for text in project["classifiers"]]
    for name, needs in project["optional-dependencies"].items():
        lines += [f"Provides-Extra: {name}\n", *(f"Requires-Dist: {one}; extra == '{name}'\n" for one in needs)]
    return "".join(lines) + "\n" + (TOP / "README.md").read_text()


def modules() -> Iterator[tuple[str, bytes, int]]:
    """The files of the package: their names, what they hold and their permissions."""
    for path in sorted((TOP / "python/psmax").rglob("*")):
        if path.suffix in KINDS and "__pycache__" not in path.parts:
            yield str(path.relative_to(TOP / "python")), path.read_bytes(), 0o644


def programs(folder: str) -> Iterator[tuple[str, bytes, int]]:
    for name in PROGRAMS:
        yield f"{folder}/{name}", (TOP / "release" / name).read_bytes(), 0o755


def commands() -> str:
    """The folder of what becomes a command."""
    return f"psmax-{version()}.data/scripts"


def told() -> Iterator[tuple[str, bytes, int]]:
    """What the wheel says of itself, in its folder."""
    entries = "".join(f"{name} = {place}\n" for name, place in stated()["scripts"].items())
    texts = {"METADATA": metadata(), "WHEEL": WHEEL, "entry_points.txt": f"[console_scripts]\n{entries}"}
    for name, text in texts.items():
        yield f"psmax-{version()}.dist-info/{name}", text.encode(), 0o644


def line(name: str, data: bytes) -> str:
    digest = base64.urlsafe_b64encode(hashlib.sha256(data).digest()).rstrip(b"=").decode()
    return f"{name},sha256={digest},{len(data)}\n"


def build_wheel(wheel_directory: str, config_settings: Settings = None, metadata_directory: str | None = None) -> str:
    """Writes the wheel there. Its name."""
    return put([*modules(), *programs("psmax/bin"), *programs(commands()), *told()], wheel_directory)


def build_editable(wheel_directory: str, config_settings: Settings = None,
                   metadata_directory: str | None = None) -> str:
    """Writes a wheel there that leads to these sources (PEP 660). Its name."""
    path = f"{TOP / 'python'}\n".encode()
    return put([("psmax.pth", path, 0o644), *programs(commands()), *told()], wheel_directory)


def put(files: Sequence[tuple[str, bytes, int]], folder: str) -> str:
    """A wheel of these files."""
    record = f"psmax-{version()}.dist-info/RECORD"
    lines = "".join(line(name, data) for name, data, _ in files) + f"{record},,\n"
    wheel = f"psmax-{version()}-{TAG}.whl"
    with zipfile.ZipFile(pathlib.Path(folder) / wheel, "w", zipfile.ZIP_DEFLATED) as archive:
        for name, data, mode in [*files, (record, lines.encode(), 0o644)]:
            entry = zipfile.ZipInfo(name, BEGINNING)
            entry.external_attr, entry.compress_type = (0o100000 | mode) << 16, zipfile.ZIP_DEFLATED
            archive.writestr(entry, data)
    return wheel


def build_sdist(sdist_directory: str, config_settings: Settings = None) -> str:
    """Writes an archive there of all that a wheel is made of. Its name."""
    base = f"psmax-{version()}"
    files = [TOP / name for name in SOURCES]
    files += [path for path in sorted((TOP / "python/psmax").rglob("*")) if path.suffix in KINDS]
    about = metadata().encode()
    with tarfile.open(pathlib.Path(sdist_directory) / f"{base}.tar.gz", "w:gz", format=tarfile.PAX_FORMAT) as archive:
        entry = tarfile.TarInfo(f"{base}/PKG-INFO")
        entry.size = len(about)
        archive.addfile(entry, io.BytesIO(about))
        for path in files:
            archive.add(path, f"{base}/{path.relative_to(TOP)}")
    return f"{base}.tar.gz"


if __name__ == "__main__":
    if len(sys.argv) != 2:
        sys.exit(__doc__)
    folder = pathlib.Path(sys.argv[1])
    folder.mkdir(parents=True, exist_ok=True)
    print(folder / build_wheel(str(folder)))

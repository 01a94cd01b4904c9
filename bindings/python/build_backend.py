"""Makes the wheel of the package, for `pip install bindings/python` (PEP 517), with nothing but the standard library.

The wheel has the package, its licence, and the library beside the package's __init__.py: the file that FERMION_LIB names,
else target/native/libfermion.so of the repository, which tools/shared_object.sh makes. Two builds of the same files are the
same bytes.
"""
import base64
import hashlib
import os
import re
import zipfile
from pathlib import Path

HERE = Path(__file__).resolve().parent
ROOT = HERE.parents[1]
PACKAGE = HERE / "fermion"
MACHINES = {62: "x86_64", 183: "aarch64"}  # e_machine of an ELF file
SUMMARY = "Exact fermion operators on up to 64 modes: the proved library fermion, for Python"


def version():
    """The package's own `__version__`, read as text: a build does not import the package."""
    found = {match for file in PACKAGE.glob("*.py")
             for match in re.findall(r'^__version__ = "([^"]+)"', file.read_text(encoding="utf-8"), re.M)}
    if len(found) != 1:
        raise SystemExit(f"fermion: {PACKAGE} has no one line __version__ = \"..\": {sorted(found)}")
    return found.pop()


def library():
    """The bytes of the library, and the machine that it is for."""
    named = os.environ.get("FERMION_LIB")
    file = Path(named) if named else ROOT / "target" / "native" / "libfermion.so"
    if not file.is_file():
        raise SystemExit(f"fermion: {file} is not there: run tools/shared_object.sh of the repository first, or name a "
                         "library by its absolute path in FERMION_LIB")
    data = file.read_bytes()
    machine = MACHINES.get(int.from_bytes(data[18:20], "little")) if data[:5] == b"\x7fELF\x02" else None
    if machine is None or b"fermion_check" not in data:
        raise SystemExit(f"fermion: {file} is not the library for x86-64 or aarch64")
    return data, machine


def metadata():
    lines = ["Metadata-Version: 2.1", "Name: fermion", f"Version: {version()}", f"Summary: {SUMMARY}", "License: Apache-2.0",
             "License-File: LICENSE", "License-File: NOTICE", "Requires-Python: >=3.8",
             "Description-Content-Type: text/markdown", ""]
    return "\n".join(lines) + "\n" + (HERE / "README.md").read_text(encoding="utf-8")


def about(tag):
    """The files of the wheel's .dist-info but for RECORD."""
    wheel = ["Wheel-Version: 1.0", "Generator: fermion-build-backend", f"Root-Is-Purelib: {str(tag.endswith('any')).lower()}",
             f"Tag: {tag}", ""]
    files = {"METADATA": metadata().encode(), "WHEEL": "\n".join(wheel).encode()}
    for name in "LICENSE", "NOTICE":
        files[f"licenses/{name}"] = (ROOT / name).read_bytes()
    return {f"fermion-{version()}.dist-info/{name}": data for name, data in files.items()}


def package():
    """The files of the package but for the library."""
    files = [file for file in PACKAGE.rglob("*") if file.suffix == ".py" or file.name == "py.typed"]
    return {file.relative_to(HERE).as_posix(): file.read_bytes() for file in files}


def record_of(files, place):
    """Every file with its hash and its length, and RECORD itself with neither."""
    lines = []
    for name in sorted(files):
        digest = base64.urlsafe_b64encode(hashlib.sha256(files[name]).digest()).rstrip(b"=").decode()
        lines.append(f"{name},sha256={digest},{len(files[name])}\n")
    return "".join(lines + [f"{place},,\n"]).encode()


def write_wheel(folder, tag, files):
    """The file's name."""
    files = dict(files, **about(tag))
    place = f"fermion-{version()}.dist-info/RECORD"
    files[place] = record_of(files, place)
    name = f"fermion-{version()}-{tag}.whl"
    with zipfile.ZipFile(os.path.join(folder, name), "w", zipfile.ZIP_DEFLATED) as wheel:
        for path in sorted(files):
            entry = zipfile.ZipInfo(path, (1980, 1, 1, 0, 0, 0))
            entry.external_attr = (0o100755 if path.endswith(".so") else 0o100644) << 16
            entry.compress_type = zipfile.ZIP_DEFLATED
            wheel.writestr(entry, files[path])
    return name


def build_wheel(wheel_directory, config_settings=None, metadata_directory=None):
    data, machine = library()
    return write_wheel(wheel_directory, f"py3-none-linux_{machine}", dict(package(), **{"fermion/libfermion.so": data}))


def prepare_metadata_for_build_wheel(metadata_directory, config_settings=None):
    for name, data in about(f"py3-none-linux_{library()[1]}").items():
        file = Path(metadata_directory) / name
        file.parent.mkdir(parents=True, exist_ok=True)
        file.write_bytes(data)
    return f"fermion-{version()}.dist-info"


def build_editable(wheel_directory, config_settings=None, metadata_directory=None):
    """Only a pointer to this folder: the library is then the repository's own."""
    return write_wheel(wheel_directory, "py3-none-any", {"fermion.pth": f"{HERE}\n".encode()})


def build_sdist(sdist_directory, config_settings=None):
    raise SystemExit("fermion: there is no source distribution: the library is built with its proofs, in the repository. A "
                     "wheel is made by: pip wheel bindings/python")


def get_requires_for_build_wheel(config_settings=None):
    return []


get_requires_for_build_editable = get_requires_for_build_sdist = get_requires_for_build_wheel

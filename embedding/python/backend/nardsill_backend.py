"""Builds the wheel and the source distribution by the standard library alone, and so without a network (PEP 517).

pyproject.toml has the project's words, and `nardsill/__init__.py` its version. A wheel has the library inside: it is for one platform, and
for each Python that pyproject.toml lets in. The same files make the same bytes: SOURCE_DATE_EPOCH tells the seconds that each file gets.
"""
import ast
import base64
import gzip
import hashlib
import io
import os
import pathlib
import re
import sysconfig
import tarfile
import time
import zipfile

TOP = pathlib.Path(__file__).resolve().parent.parent
LIBRARY = TOP / "nardsill" / "libnardsill.so"
# What a source distribution has beside the package.
BESIDE = ("pyproject.toml", "README.md", "mailbox_index.py", "test_nardsill.py", "backend/*.py", "tests/*.py")
# The first moment that a file in a wheel can have.
FIRST = 315532800


def project():
    """The table `project` of pyproject.toml, each value of which is a text or a list of texts. Python 3.10 has no reader of such files."""
    found, name, value = {}, None, ""
    is_there = False
    for line in (TOP / "pyproject.toml").read_text().splitlines():
        if name is None and line.startswith("["):
            is_there = line == "[project]"
        elif is_there and line.strip() and not line.startswith("#"):
            if name is None:
                name, _, value = (part.strip() for part in line.partition("="))
            else:
                value += line.strip()
            if not value.startswith("[") or value.endswith("]"):
                found[name] = ast.literal_eval(value)
                name = None
    return found


def version():
    return re.search(r'^__version__ = "(.*)"$', (TOP / "nardsill" / "__init__.py").read_text(), re.M)[1]


def metadata():
    """What METADATA and PKG-INFO tell of the package."""
    words = project()
    lines = ["Metadata-Version: 2.1", f"Name: {words['name']}", f"Version: {version()}", f"Summary: {words['description']}"]
    lines += [f"Keywords: {','.join(words['keywords'])}"]
    lines += [f"Classifier: {each}" for each in words["classifiers"]]
    lines += [f"Requires-Python: {words['requires-python']}", "Description-Content-Type: text/markdown"]
    return "\n".join(lines) + "\n\n" + (TOP / words["readme"]).read_text()


def tag():
    return "py3-none-" + re.sub(r"[^\w]", "_", sysconfig.get_platform())


def wheel_words():
    return f"Wheel-Version: 1.0\nGenerator: nardsill_backend\nRoot-Is-Purelib: false\nTag: {tag()}\n"


def package():
    """The files of the package: their names, and their bytes. Without the library nothing is built."""
    if not LIBRARY.exists():
        raise SystemExit(f"nardsill: {LIBRARY} isn't there: run tools/embedding build")
    paths = sorted([*(TOP / "nardsill").glob("*.py"), TOP / "nardsill" / "py.typed", LIBRARY])
    return {str(path.relative_to(TOP)): path.read_bytes() for path in paths}


def mode(name):
    return 0o755 if name.endswith(".so") else 0o644


def moment():
    """The seconds that each file gets."""
    return max(FIRST, int(os.environ.get("SOURCE_DATE_EPOCH", FIRST)))


def record(files):
    """What RECORD tells: each file's sum and length, and itself without."""
    sums = {name: base64.urlsafe_b64encode(hashlib.sha256(data).digest()).rstrip(b"=").decode() for name, data in files.items()}
    return [f"{name},sha256={sums[name]},{len(data)}" for name, data in files.items()]


def get_requires_for_build_wheel(config_settings=None):
    return []


def get_requires_for_build_sdist(config_settings=None):
    return []


def prepare_metadata_for_build_wheel(metadata_directory, config_settings=None):
    """Writes what the wheel will tell of the package, and answers the folder's name."""
    name = f"nardsill-{version()}.dist-info"
    folder = pathlib.Path(metadata_directory, name)
    folder.mkdir(parents=True)
    (folder / "METADATA").write_text(metadata())
    (folder / "WHEEL").write_text(wheel_words())
    return name


def build_wheel(wheel_directory, config_settings=None, metadata_directory=None):
    """Writes the wheel, and answers its name."""
    folder = f"nardsill-{version()}.dist-info"
    files = package()
    files[f"{folder}/METADATA"] = metadata().encode()
    files[f"{folder}/WHEEL"] = wheel_words().encode()
    lines = [*record(files), f"{folder}/RECORD,,"]
    files[f"{folder}/RECORD"] = ("\n".join(lines) + "\n").encode()
    name = f"nardsill-{version()}-{tag()}.whl"
    with zipfile.ZipFile(pathlib.Path(wheel_directory, name), "w") as wheel:
        for path, data in files.items():
            entry = zipfile.ZipInfo(path, time.gmtime(moment())[:6])
            entry.compress_type, entry.create_system, entry.external_attr = zipfile.ZIP_DEFLATED, 3, (0o100000 | mode(path)) << 16
            wheel.writestr(entry, data)
    return name


def build_sdist(sdist_directory, config_settings=None):
    """Writes the source distribution, which has the library too, and answers its name."""
    top = f"nardsill-{version()}"
    files = package()
    for pattern in BESIDE:
        files.update((str(path.relative_to(TOP)), path.read_bytes()) for path in TOP.glob(pattern))
    files["PKG-INFO"] = metadata().encode()
    name = f"{top}.tar.gz"
    with open(pathlib.Path(sdist_directory, name), "wb") as out, gzip.GzipFile("", "wb", mtime=0, fileobj=out) as packed:
        with tarfile.open(fileobj=packed, mode="w", format=tarfile.PAX_FORMAT) as archive:
            for path in sorted(files):
                entry = tarfile.TarInfo(f"{top}/{path}")
                entry.size, entry.mode, entry.mtime = len(files[path]), mode(path), moment()
                archive.addfile(entry, io.BytesIO(files[path]))
    return name

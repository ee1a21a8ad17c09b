"""Builds the package without any other: compiles src/*.c, links the library for C, and packs a wheel (PEP 517).

The library is looked for in this order: in the folder CEDAR_LIBRARY_FOLDER, which has libroskvidh.a and cedar.h, as ./build-c fills one;
under the prefix ROSKVIDH_PREFIX, where it was installed; where ./build-c puts it in the repository; and under /usr/local and /usr. CC is the C
compiler, and CFLAGS are put behind the flags that stand here.
"""

import base64
import hashlib
import io
import os
import re
import shlex
import shutil
import subprocess
import sys
import sysconfig
import tarfile
import tempfile
import zipfile
from pathlib import Path

HERE = Path(__file__).resolve().parent.parent
LIBRARY = HERE.parent / "crates" / "cedar_c" / "out" / "c"
PACKAGE = "roskvidh"
EXTENSION = "_core.abi3.so"
FLAGS = "-std=c11 -O2 -fPIC -shared -fvisibility=hidden -Wall -Wextra -Wno-cast-function-type -DPy_LIMITED_API=0x03080000".split()
PREFIXES = ("/usr/local", "/usr")
# What pip and a user see of a failed build is its text alone.
MISSING = (
    "{place} has no {name}: run ./build-c in the repository first, or set ROSKVIDH_PREFIX to the prefix that it was installed to, "
    "or CEDAR_LIBRARY_FOLDER to the folder that it filled, each as a path from the root on"
)


class Library:
    """The library for C: a folder for -I, and an archive."""

    def __init__(self, headers, archive):
        self.headers, self.archive = headers, archive

    @classmethod
    def built(cls, folder):
        """As ./build-c fills a folder."""
        return cls(folder, folder / "libroskvidh.a")

    @classmethod
    def installed(cls, prefix):
        """As ./build-c --install puts it under a prefix."""
        return cls(prefix / "include" / PACKAGE, prefix / "lib" / f"lib{PACKAGE}.a")

    def lacks(self):
        """Returns the first of its files that isn't there, or None."""
        return next((path for path in (self.archive, self.headers / "cedar.h") if not path.is_file()), None)

    def version(self):
        found = re.search(r'^#define CEDAR_VERSION "(.*)"$', (self.headers / "cedar.h").read_text(), re.M)
        return found.group(1) if found else "unknown"


def library():
    """Returns the library, or ends with a line that says what to do."""
    if os.environ.get("CEDAR_LIBRARY_FOLDER"):
        found = Library.built(Path(os.environ["CEDAR_LIBRARY_FOLDER"]))
    elif os.environ.get("ROSKVIDH_PREFIX"):
        found = Library.installed(Path(os.environ["ROSKVIDH_PREFIX"]))
    else:
        tries = [Library.built(LIBRARY), *(Library.installed(Path(prefix)) for prefix in PREFIXES)]
        found = next((made for made in tries if not made.lacks()), tries[0])
    lacking = found.lacks()
    if lacking:
        # pip builds in the folder of the sources: of a relative path it is shown where it leads to from there.
        raise SystemExit("roskvidh: " + MISSING.format(place=lacking.parent.absolute(), name=lacking.name))
    if found.version() != version():
        raise SystemExit(f"roskvidh: {found.headers / 'cedar.h'} is of version {found.version()}, and the package of {version()}")
    return found


def compiler():
    for name in filter(None, (os.environ.get("CC"), "cc", "gcc", "clang")):
        words = shlex.split(name)
        if shutil.which(words[0]):
            return words
    raise SystemExit("roskvidh: a C compiler is missing: install one, or set CC")


def compile_extension(into):
    """Compiles the extension to a file."""
    if sysconfig.get_config_var("Py_GIL_DISABLED"):
        raise SystemExit("roskvidh: this Python has no interpreter's lock, which the extension relies on: take a usual build of Python")
    made = library()
    headers = Path(sysconfig.get_path("include"))
    if not (headers / "Python.h").is_file():
        raise SystemExit(f"roskvidh: {headers} has no Python.h: install the headers of this Python (python3-dev)")
    sources = sorted(map(str, (HERE / "src").glob("*.c")))
    command = [*compiler(), *FLAGS, *shlex.split(os.environ.get("CFLAGS", "")), f"-I{headers}", f"-I{made.headers}", *sources]
    # The library's own names stay within the extension, so that another copy in the process doesn't meet it.
    command += [str(made.archive), "-Wl,--exclude-libs,ALL", "-o", str(into)]
    done = subprocess.run(command, stderr=subprocess.PIPE, text=True)
    if done.returncode != 0:
        raise SystemExit(f"roskvidh: the compiler failed\n{shlex.join(command)}\n{done.stderr}")


def project(field):
    """Returns a text of pyproject.toml, each of which stands on a line of its own."""
    return re.search(rf'^{field} = "(.*)"$', (HERE / "pyproject.toml").read_text(), re.M).group(1)


def version():
    return re.search(r'^__version__ = "(.*)"$', (HERE / PACKAGE / "__init__.py").read_text(), re.M).group(1)


def metadata():
    return (
        f"Metadata-Version: 2.1\nName: {PACKAGE}\nVersion: {version()}\nSummary: {project('description')}\n"
        "License: BSD-2-Clause\nClassifier: Operating System :: POSIX :: Linux\n"
        "Classifier: Programming Language :: Python :: Implementation :: CPython\nClassifier: Typing :: Typed\n"
        f"Requires-Python: {project('requires-python')}\nDescription-Content-Type: text/markdown\n\n"
        + (HERE / "README.md").read_text()
    )


def licence():
    """Returns the path of the license, which sources that were packed have beside them."""
    return next(path for path in (HERE / "LICENSE", HERE.parent / "LICENSE") if path.is_file())


def tag(extension):
    """Returns what a wheel with an extension runs on: the processor, CPython from 3.8 on, and the oldest glibc that has what it calls, so
    that pip doesn't install it where it can't be loaded."""
    platform = re.sub(r"[^0-9a-zA-Z]", "_", sysconfig.get_platform())
    needed = [tuple(map(int, found)) for found in re.findall(rb"GLIBC_(\d+)\.(\d+)", extension)]
    if needed and platform.startswith("linux_"):
        # pip knows such names from glibc 2.5 on.
        major, minor = max([*needed, (2, 5)])
        platform = f"manylinux_{major}_{minor}_{platform[len('linux_'):]}"
    return f"cp38-abi3-{platform}"


def wheel_text(built_tag):
    return f"Wheel-Version: 1.0\nGenerator: roskvidh_build\nRoot-Is-Purelib: false\nTag: {built_tag}\n"


def python_files():
    return sorted(path for path in (HERE / PACKAGE).iterdir() if path.suffix in (".py", ".pyi") or path.name == "py.typed")


class Wheel:
    """A wheel that is being written in a folder: a zip with a list of its files and their hashes."""

    def __init__(self, folder, extension):
        self.tag = tag(extension)
        self.name = f"{PACKAGE}-{version()}-{self.tag}.whl"
        self.zip = zipfile.ZipFile(Path(folder) / self.name, "w", zipfile.ZIP_DEFLATED)
        self.record = []
        self.info = f"{PACKAGE}-{version()}.dist-info"

    def add(self, name, data):
        # A fixed date, so that the same sources make the same wheel.
        entry = zipfile.ZipInfo(name, (1980, 1, 1, 0, 0, 0))
        entry.external_attr = (0o755 if name.endswith(".so") else 0o644) << 16
        entry.compress_type = zipfile.ZIP_DEFLATED
        self.zip.writestr(entry, data)
        digest = base64.urlsafe_b64encode(hashlib.sha256(data).digest()).rstrip(b"=").decode()
        self.record.append(f"{name},sha256={digest},{len(data)}")

    def close(self):
        self.add(f"{self.info}/METADATA", metadata().encode())
        self.add(f"{self.info}/WHEEL", wheel_text(self.tag).encode())
        self.add(f"{self.info}/LICENSE", licence().read_bytes())
        self.record.append(f"{self.info}/RECORD,,")
        self.zip.writestr(f"{self.info}/RECORD", "\n".join(self.record) + "\n")
        self.zip.close()


def build_wheel(wheel_directory, config_settings=None, metadata_directory=None):
    with tempfile.TemporaryDirectory() as folder:
        path = Path(folder) / EXTENSION
        compile_extension(path)
        extension = path.read_bytes()
    wheel = Wheel(wheel_directory, extension)
    for path in python_files():
        wheel.add(f"{PACKAGE}/{path.name}", path.read_bytes())
    wheel.add(f"{PACKAGE}/{EXTENSION}", extension)
    wheel.close()
    return wheel.name


def build_editable(wheel_directory, config_settings=None, metadata_directory=None):
    """Compiles the extension in its place, and makes a wheel that points here."""
    compile_extension(HERE / PACKAGE / EXTENSION)
    wheel = Wheel(wheel_directory, (HERE / PACKAGE / EXTENSION).read_bytes())
    wheel.add(f"{PACKAGE}.pth", f"{HERE}\n".encode())
    wheel.close()
    return wheel.name


def build_sdist(sdist_directory, config_settings=None):
    """Packs the sources. The library for C isn't among them: ROSKVIDH_PREFIX or CEDAR_LIBRARY_FOLDER says where it is."""
    base = f"{PACKAGE}-{version()}"
    with tarfile.open(Path(sdist_directory) / f"{base}.tar.gz", "w:gz", format=tarfile.PAX_FORMAT) as archive:
        for part in ("pyproject.toml", "README.md", "backend/roskvidh_build.py", *(f"src/{path.name}" for path in sorted((HERE / "src").iterdir()))):
            archive.add(HERE / part, f"{base}/{part}")
        archive.add(licence(), f"{base}/LICENSE")
        for path in python_files():
            archive.add(path, f"{base}/{PACKAGE}/{path.name}")
        entry = tarfile.TarInfo(f"{base}/PKG-INFO")
        entry.size = len(metadata().encode())
        archive.addfile(entry, io.BytesIO(metadata().encode()))
    return f"{base}.tar.gz"


def get_requires_for_build_wheel(config_settings=None):
    return []


get_requires_for_build_editable = get_requires_for_build_sdist = get_requires_for_build_wheel


if __name__ == "__main__":
    # python3 backend/roskvidh_build.py FILE: compiles the extension to a file, for tests of the sources as they are.
    compile_extension(Path(sys.argv[1]))

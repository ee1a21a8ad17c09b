"""The programs that are measured: this repository's library, and the peers that can be had. Each is built here."""

import os
import re
import shutil
import subprocess
from dataclasses import dataclass, field
from pathlib import Path

TOP = Path(__file__).resolve().parent.parent
CPP = TOP / "bench" / "cpp"
COMPILE = ["g++", "-std=c++20", "-O2", "-Wall", "-Wextra", "-Werror"]


class Missing(Exception):
    """What isn't built where it has to be."""


@dataclass
class Subject:
    """A program for the measures of dictionaries, and the command that answers scripts, if there is one."""

    name: str
    program: Path
    version: str
    script: list = field(default_factory=list)
    # The program of tests/c/rate.c, for the library from C alone.
    threads: Path | None = None
    # Measures that it isn't asked for, and the workloads that it is asked on.
    without: tuple = ()
    workloads: tuple = ("words", "random", "long")
    # More keys than so many aren't put into it.
    most_keys: int = 1_000_000


def compiled(out, name, source, *words):
    program = out / "bin" / name
    program.parent.mkdir(parents=True, exist_ok=True)
    subprocess.run([*COMPILE, str(CPP / source), "-o", str(program), *map(str, words)], check=True)
    return program


def built_by_cargo(out, name, program, crates):
    """The program of bench/NAME, of a copy of its sources, since cargo writes beside them. With a folder of crates nothing is fetched."""
    copy = out / name
    shutil.copytree(TOP / "bench" / name, copy, dirs_exist_ok=True)
    for made in (copy / "Cargo.lock", copy / ".cargo" / "config.toml"):
        made.unlink(missing_ok=True)
    command = ["cargo", "build", "--release", "--quiet"]
    if crates:
        (copy / ".cargo").mkdir(exist_ok=True)
        source = f'[source.crates-io]\nreplace-with = "debian"\n[source.debian]\ndirectory = "{crates}"\n'
        (copy / ".cargo" / "config.toml").write_text(source)
        command.append("--offline")
    subprocess.run(command, cwd=copy, check=True, env={**os.environ, "CARGO_TARGET_DIR": str(copy / "target")})
    return copy / "target" / "release" / program


def version_here():
    return (TOP / "VERSION").read_text().strip()


def built_here(crate):
    return TOP / "crates" / crate / "out" / crate


def here(is_built):
    """This repository's library, called from Rattle by the program of crates/measure_run, and the program for scripts: proved and built if they
    aren't; with `is_built` those that are there."""
    if not is_built:
        print("measure: the programs in Rattle are proved and built first where they aren't", flush=True)
        subprocess.run([str(TOP / "tools" / "program"), "measure_run", str(TOP / "crates" / "measure_run" / "data"), "0"], check=True)
        subprocess.run([str(TOP / "cedar")], stdin=subprocess.DEVNULL, check=True)
    program, scripts = built_here("measure_run"), built_here("cedar")
    if not program.exists():
        raise Missing(f"{program.relative_to(TOP)} isn't there: ./gate and ./test build it")
    return Subject("here", program, f"{version_here()}, from Rattle", [str(scripts)] if scripts.exists() else [], most_keys=10_000_000)


def here_c(out, is_built):
    """The same library by the calls of c/include/cedar.h, built if it isn't; with `is_built` the one that is there."""
    library = TOP / "crates" / "cedar_c" / "out" / "c" / "libroskvidh.a"
    sources = [*TOP.glob("crates/*/src/**/*.rt"), *TOP.glob("c/include/*"), *TOP.glob("c/*.[ch]")]
    if not is_built and (not library.exists() or any(path.stat().st_mtime > library.stat().st_mtime for path in sources)):
        print("measure: ./build-c proves and builds the library first", flush=True)
        subprocess.run([str(TOP / "build-c")], check=True)
    if not library.exists():
        raise Missing(f"{library.relative_to(TOP)} isn't there: ./build-c builds it")
    program = compiled(out, "here_c", "cedar.cpp", "-I", TOP / "c" / "include", library)
    rate = out / "bin" / "rate"
    c = ["gcc", "-std=c11", "-O2", "-pthread", "-I", TOP / "c" / "include", "-o", rate, TOP / "tests" / "c" / "rate.c", library]
    subprocess.run([*map(str, c)], check=True)
    return Subject("here_c", program, f"{version_here()}, from C", threads=rate)


def peers(out, packages, wants):
    """Those wanted peers whose packages can be had. What isn't there is said."""
    wanted = (
        ("judy", "judy.cpp", "libjudy-dev", "Judy.h", "libJudy.a", {}),
        # Its updates in no order, and those of keys that share little, take time with the square of their number.
        ("libdatrie", "datrie.cpp", "libdatrie-dev", "datrie/trie.h", "libdatrie.a",
         {"without": ("update_shuffled", "erase", "latency"), "workloads": ("words",)}),
        ("marisa", "marisa.cpp", "libmarisa-dev", "marisa.h", "libmarisa.a", {}),
    )
    for name, source, package, header, library, limits in wanted:
        if not wants(name):
            continue
        found = packages.get(package, header)
        archive = packages.get(package, library)
        if not found or not archive:
            print(f"measure: {name} is left out: Debian's package {package} isn't there", flush=True)
            continue
        include = found.parents[header.count("/")]
        program = compiled(out, name, source, *([] if str(include) == "/usr/include" else ["-I", include]), archive)
        yield Subject(name, program, f"{package} {packages.version(package)}", **limits)
    version = subprocess.run(["g++", "-dumpfullversion"], capture_output=True, text=True, check=True).stdout.strip()
    for name, words in (("map", ["-DORDERED"]), ("unordered_map", [])):
        if wants(name):
            yield Subject(name, compiled(out, name, "standard.cpp", *words), f"std::{name} of g++ {version}")


def original(out, path):
    """The original crate from its sources: the adapter in bench/original, built with optimisation at link time."""
    path = Path(path).resolve()
    manifest = (path / "Cargo.toml").read_text()
    package = re.search(r'^name = "(.*)"', manifest, re.M).group(1)
    version = re.search(r'^version = "(.*)"', manifest, re.M).group(1)
    folder = out / "original"
    shutil.copytree(TOP / "bench" / "original" / "src", folder / "src", dirs_exist_ok=True)
    text = (TOP / "bench" / "original" / "Cargo.toml.in").read_text()
    (folder / "Cargo.toml").write_text(text.replace("@PATH@", str(path)).replace("@PACKAGE@", package))
    subprocess.run(["cargo", "build", "--release", "--quiet"], cwd=folder, check=True, env={**os.environ, "CARGO_TARGET_DIR": str(folder / "target")})
    program = folder / "target" / "release" / "original"
    compiler = subprocess.run(["rustc", "--version"], capture_output=True, text=True, check=True).stdout.split()[1]
    return Subject("cedarwood", program, f"crate {version}, rustc {compiler}, LTO", [str(program), "script"], most_keys=10_000_000)

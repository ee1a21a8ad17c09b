"""Packages of Debian: those that are installed, and others by `apt-get download`, unpacked into a folder without being installed."""

import subprocess
from pathlib import Path

# Where a package's files may lie.
PLACES = ("/usr/include", "/usr/lib/x86_64-linux-gnu", "/usr/lib/aarch64-linux-gnu", "/usr/lib", "/usr/share/dict", "/usr/lib/python3/dist-packages")


class Packages:
    def __init__(self, folder, is_offline):
        self.folder = folder
        self.is_offline = is_offline

    def find(self, name):
        """The path of a file, as `include/Judy.h`, of an installed package or of one that was unpacked; or nothing."""
        for root in (Path("/"), self.folder):
            for place in PLACES:
                path = root / place.lstrip("/") / name
                if path.exists():
                    return path
        return None

    def get(self, package, name):
        """A file of a package, which is downloaded if the file isn't there yet. Nothing if it can't be had."""
        found = self.find(name)
        if found or self.is_offline:
            return found
        self.fetch(package)
        return self.find(name)

    def fetch(self, package):
        """Downloads a package and unpacks it into the folder."""
        self.folder.mkdir(parents=True, exist_ok=True)
        command = f"apt-get download {package} && for file in {package}_*.deb; do dpkg -x \"$file\" .; done"
        subprocess.run(["sh", "-c", command], cwd=self.folder, stdout=subprocess.DEVNULL, stderr=subprocess.DEVNULL, check=False)

    def crates(self, versions):
        """The folder of crates' sources, as Debian packs them, that has a version of each crate that begins so: crates({"memchr": "2."}).
        What isn't there is downloaded. Nothing if one can't be had."""
        for is_last in (False, True):
            for root in (Path("/"), self.folder):
                registry = root / "usr/share/cargo/registry"
                if all(list(registry.glob(f"{name}-{version}*")) for name, version in versions.items()):
                    return registry
            for package in () if is_last else (f"librust-{name}-dev" for name in versions):
                if not self.is_offline and not list(self.folder.glob(f"{package}_*.deb")):
                    self.fetch(package)
        return None

    def version(self, package):
        """The version of a package that was downloaded, or of the installed one."""
        for path in self.folder.glob(f"{package}_*.deb"):
            return path.name.split("_")[1]
        told = subprocess.run(["dpkg-query", "-W", "-f=${Version}", package], capture_output=True, text=True, check=False)
        return told.stdout or "?"

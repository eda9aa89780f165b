"""Disks in memory for guests of Linux: programs with the libraries that they want, modules, and the first program."""
import re
import shutil
from pathlib import Path

from tally import run

LOADER = "ld-linux-x86-64.so.2"
FOLDERS = ("bin", "dev", "lib/x86_64-linux-gnu", "lib64", "proc", "sys", "usr/share/misc")


def found(root: Path, library: str) -> Path:
    """A library of Debian's, in one of the two folders that it has for them."""
    places = [root / folder / "x86_64-linux-gnu" / library for folder in ("lib", "usr/lib")]
    return next(place for place in places if place.is_file())


def libraries(root: Path, program: Path, known: dict[str, Path]) -> None:
    """Adds the libraries that a program wants, and those that they want."""
    ran = run(["readelf", "-d", program])
    for library in re.findall(r"\(NEEDED\).*\[(.+)\]", ran.stdout.decode()):
        if library not in known:
            known[library] = found(root, library)
            libraries(root, known[library], known)


def with_libraries(root: Path, programs: list[Path]) -> dict[str, Path]:
    """Where each of these programs, and what it wants, lies on a disk."""
    known = {LOADER: found(root, LOADER)}
    for program in programs:
        libraries(root, program, known)
    files = {f"lib/x86_64-linux-gnu/{library}": path for library, path in known.items()}
    return files | {f"lib64/{LOADER}": known[LOADER]} | {f"bin/{program.name}": program for program in programs}


def packed(folder: Path, busybox: Path, files: dict[str, Path]) -> Path:
    """Lays a disk out in a new folder, with busybox and these files, and packs it as Linux takes it."""
    for name in FOLDERS:
        (folder / name).mkdir(parents=True)
    for name, path in {"bin/busybox": busybox, **files}.items():
        shutil.copy(path, folder / name)
    (folder / "init").chmod(0o755)
    names = "\n".join(str(path.relative_to(folder)) for path in sorted(folder.rglob("*")))
    ran = run([busybox, "cpio", "-o", "-H", "newc"], names.encode(), cwd=folder)
    disk = folder.with_suffix(".cpio")
    disk.write_bytes(ran.stdout)
    return disk

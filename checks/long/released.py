"""What a release is made of, and how its check reads and runs that (checks/long/release)."""
import os
import re
import shutil
import subprocess

import crates_txt
from library_programs import ARM, ROOT, Wrong, run

VERSION = (ROOT / "VERSION").read_text().strip()
NAME, ARM_NAME = (f"renamer-{VERSION}-{processor}-linux" for processor in ("x86_64", "aarch64"))
ARCHIVE, ARM_ARCHIVE, SPDX, SUMS = f"{NAME}.tar.gz", f"{ARM_NAME}.tar.gz", f"renamer-{VERSION}.spdx", "SHA256SUMS"
PACKAGES = [
    *(f"{name}_{VERSION}_amd64.deb" for name in ("librenamer-dev", "librenamer1", "renamer")),
    *(f"{name}_{VERSION}_all.deb" for name in ("renamer-doc", "renamer-tools")),
]
WHEEL = f"renamer-{VERSION}-py3-none-manylinux_2_17_x86_64.whl"
MADE = [ARCHIVE, ARM_ARCHIVE, *PACKAGES, WHEEL, SPDX, SUMS]
# What of an archive its `install` leaves where it is.
AT_TOP = {"Containerfile", "LICENSE", "README.md", "THIRD-PARTY", "install"}
MUSL = "x86_64-unknown-linux-musl"
# What ./release takes as it was built, and what says of what that was built.
BUILT = tuple(f"crates/{crate}/out/{file}" for crate, files in (
    ("renamer", ("renamer", f"renamer-{ARM}", f"renamer-{MUSL}",
                 *(f"rlib/{name}.sum" for name in ("renamer", f"renamer-{ARM}", f"renamer-{MUSL}", "renamer_c",
                                                   f"renamer_c-{ARM}")))),
    ("renamer_c", ("librenamer_c.a", f"librenamer_c-{ARM}.a")),
) for file in files)
# What of a demangled name is its crate.
CRATE = re.compile(r"(?<![\w:])([a-z]\w*)::")
# A root is changed by a user who may not do so in a space of names of its own.
AS_ROOT = [] if os.getuid() == 0 else ["unshare", "--map-root-user"]
# The commands of examples/README.md that are tried: the words, the file that is read, and what is printed.
EXAMPLE = re.compile(r"^    \$ renamer ([\w -]+) < (examples/\S+)\n((?:    .*\n)+)", re.M)


def kit_crates(crate):
    """The crates of the kit of which a crate of the repository is built, or of which its object has code."""
    own = crates_txt.listed(ROOT)
    below, found = [crate], {"core", "std"}
    for name in below:
        below += [used for used in own[name].uses if used in own and used not in below]
        found |= {used for used in own[name].uses if used not in own}
    out = ROOT / "crates" / crate / "out"
    for path in (out / "librenamer_c.a",) if own[crate].is_static else (out / "renamer", out / f"renamer-{MUSL}"):
        found |= {name for name in CRATE.findall(run(["nm", "-C", path])) if name not in own}
    return found


def glibc_of(path):
    """The latest glibc of which a file asks for something."""
    asked = re.findall(r"GLIBC_([\d.]+)", run(["readelf", "--version-info", "--wide", path]))
    return ".".join(map(str, max(tuple(map(int, found.split("."))) for found in asked)))


def status_of(name, version):
    """What dpkg knows of a package that is there."""
    return (f"Package: {name}\nStatus: install ok installed\nVersion: {version}\nArchitecture: amd64\nMaintainer: none\n"
            "Description: there\n\n")


def files(folder):
    """The files below a folder, but for what dpkg keeps of itself."""
    found = (path.relative_to(folder) for path in folder.rglob("*") if not path.is_dir() or path.is_symlink())
    return {str(path) for path in found if not str(path).startswith("var/lib/dpkg")}


def add_libraries(root, program):
    """Puts what a program is linked with at run time to the same place below a root."""
    for path in re.findall(r"(/\S+) \(0x", run(["ldd", program])):
        place = root / path[1:]
        place.parent.mkdir(parents=True, exist_ok=True)
        shutil.copy(os.path.realpath(path), place)


def in_root(root, program):
    """The words by which a program runs in a root."""
    return [*AS_ROOT, shutil.which("chroot", path="/usr/sbin:/usr/bin"), root, program]


def do_examples(program):
    """Runs the commands of the page of examples by a program, and compares what is printed with what stands there."""
    found = EXAMPLE.findall((ROOT / "examples" / "README.md").read_text())
    if len(found) < 4:
        raise Wrong(f"examples/README.md has only {len(found)} such commands")
    for words, name, shown in found:
        done = subprocess.run([*program, *words.split()], input=(ROOT / name).read_text(), capture_output=True, text=True)
        if (done.returncode, done.stdout, done.stderr) != (0, re.sub("(?m)^    ", "", shown), ""):
            raise Wrong(f"{words} < {name}: status {done.returncode}, {done.stderr or done.stdout}")
    if run([*program, "--version"]) != f"renamer {VERSION}\n":
        raise Wrong("it is of another version")

"""The trials of what ./release has made, as it lies there (checks/long/release)."""
import os
import pathlib
import re
import shutil
import subprocess
import zipfile

import third_party
from library_programs import NotTried, Wrong, run
from released import (ARCHIVE, ARM_ARCHIVE, ARM_NAME, BUILT, MADE, NAME, PACKAGES, ROOT, SPDX, SUMS, VERSION, WHEEL, files,
                      glibc_of, kit_crates)


class Made:
    """What ./release made, and where it is unpacked."""

    def __init__(self, folder):
        self.folder, self.made, self.root = folder, folder / "made", folder / "root"
        self.tree = self.root / NAME
        self.pages = self.tree / "share" / "doc" / "renamer"

    def is_made(self):
        run([ROOT / "release", self.made], seconds=3600)
        self.root.mkdir()
        for name in (ARCHIVE, ARM_ARCHIVE):
            run(["tar", "-xzf", self.made / name, "-C", self.root])

    def other_copy_makes_the_same(self):
        """The same bytes come of a clone elsewhere, by another user's habits."""
        other = self.folder / "a folder" / "with another name"
        run(["git", "clone", "--quiet", ROOT, other])
        for path in other.rglob("*"):
            os.utime(path, (10**9, 10**9), follow_symlinks=False)
        for name in BUILT:
            (other / name).parent.mkdir(parents=True, exist_ok=True)
            shutil.copy(ROOT / name, other / name)
        habits = "umask 077; exec ./release made"
        run(["bash", "-c", habits], other, TZ="Asia/Kolkata", LC_ALL="C.UTF-8", HOME="/nonexistent", USER="other")
        for name in MADE:
            if (other / "made" / name).read_bytes() != (self.made / name).read_bytes():
                raise Wrong(f"{name} has other bytes")

    def sums_are_right(self):
        run(["sha256sum", "--check", "--quiet", SUMS], self.made)
        summed = [line.split()[1] for line in (self.made / SUMS).read_text().splitlines()]
        if not sorted([*summed, SUMS]) == sorted(MADE) == sorted(path.name for path in self.made.iterdir()):
            raise Wrong(f"only these have sums: {summed}")

    def licences_are_named(self):
        """THIRD-PARTY has each crate of the kit of which a program or the library has code, with its licence."""
        kit = pathlib.Path(run(["rt", "doc"]).strip()).parent / "rattle"
        named = {"program": set(), "library": set(), "static program": set()}
        for paragraph in third_party.paragraphs():
            for into in paragraph.linked_into:
                named[into].update(paragraph.names)
            for crate in set(paragraph.names) - {"*", "musl"}:
                licences = [f"{path.read_text().strip()}\n" for path in kit.glob(f"{crate}/LICENSE*")]
                if paragraph.text not in licences if licences else paragraph.license != "not-stated":
                    raise Wrong(f"{crate} has another licence than the kit has for it")
        for into, used in (("program", kit_crates("renamer")), ("library", kit_crates("renamer_c")),
                           ("static program", {"musl"})):
            if named[into] != used:
                raise Wrong(f"THIRD-PARTY has other crates of the {into}: {sorted(named[into] ^ used)}")

    def licences_go_along(self):
        """Each archive, each package and the wheel have THIRD-PARTY, and SPDX the same list."""
        copies = [self.root / name / "THIRD-PARTY" for name in (NAME, ARM_NAME)]
        with zipfile.ZipFile(self.made / WHEEL) as wheel:
            member = f"renamer-{VERSION}.dist-info/licenses/THIRD-PARTY"
            copies.append(pathlib.Path(wheel.extract(member, self.folder / "unpacked")))
        for name in PACKAGES:
            run(["dpkg-deb", "--extract", self.made / name, self.folder / "unpacked"])
            copies.append(self.folder / "unpacked" / "usr/share/doc" / name.partition("_")[0] / "copyright")
        if other := [path for path in copies if path.read_text() != third_party.FILE.read_text()]:
            raise Wrong(f"these are others: {other}")
        listed = set(re.findall(r"^PackageName: (\w+)$", (self.made / SPDX).read_text(), re.M))
        if listed != {name for paragraph in third_party.paragraphs() for name in paragraph.names} - {"*"}:
            raise Wrong(f"the list in SPDX has other parts: {listed}")

    def says_its_sources(self):
        """The kit, and the sum of each file of the commit."""
        text = (self.pages / "docs" / "ASSURANCE.md").read_text()
        if f"`{run(['rt', 'version']).splitlines()[0]}`" not in text:
            raise Wrong("it does not name the kit")
        sums = "".join(f"{line}\n" for line in re.findall(r"^    ([0-9a-f]{64}  .*)$", text, re.M))
        if subprocess.run(["sha256sum", "--check", "--quiet"], input=sums, cwd=ROOT, text=True).returncode:
            raise Wrong("the sums of sources are not theirs")
        if sums.count("\n") != len(run(["git", "ls-files"]).splitlines()):
            raise Wrong("not each source has its sum")

    def pages_name_what_is_there(self):
        """All sources are there but hidden and empty ones and the check; for the script `renamer` the program is."""
        names = [name for name in run(["git", "ls-files"]).splitlines() if "/." not in f"/{name}"]
        texts = {name: text for name in names if (text := (ROOT / name).read_bytes())}
        there = {name: (self.pages / name).read_bytes() for name in texts if (self.pages / name).is_file()}
        other = [name for name, text in texts.items() if there.get(name) != text]
        if other != ["docs/ASSURANCE.md", "renamer", "tools/try_release"]:
            raise Wrong(f"these sources are others: {other}")
        if run(["find", self.tree, "-empty"]):
            raise Wrong("it has empty files or folders")
        outside = [name for name in files(self.tree) if name.endswith(".md") and not name.startswith("share/doc/")]
        leads = re.findall(r"\]\(([^)]*)\)", (self.tree / "README.md").read_text())
        if outside != ["README.md"] or not leads or not all((self.tree / to).is_file() for to in leads):
            raise Wrong(f"links of {outside}")
        run([self.pages / "renamer", "--version"])
        run([ROOT / "checks" / "pages" / "links", self.pages])
        run([self.pages / "checks" / "pages" / "proof_page"])

    def wants_this_glibc(self):
        """What program and library ask of the C library is said by README.md of each archive, INSTALL.md and packages."""
        for tree, on, program in ((self.tree, "any Linux on x86-64", "no C library"),
                                  (self.root / ARM_NAME, "Linux on ARM", None)):
            library = f"glibc {glibc_of(tree / 'lib' / 'librenamer.so.1')} or later"
            program = program or f"glibc {glibc_of(tree / 'bin' / 'renamer')} or later"
            said = f"The program needs {program}, and the library {library}."
            if f"{said}\n" not in (tree / "README.md").read_text():
                raise Wrong(f"{tree.name}/README.md does not say: {said}")
            row = re.search(rf"^\| {on}.*", (self.pages / "docs" / "INSTALL.md").read_text(), re.M)[0]
            if not all(wanted in row for wanted in {program, library} - {"no C library"}):
                raise Wrong(f"docs/INSTALL.md says: {row}")
        for package, file in (("renamer", "bin/renamer"), ("librenamer1", "lib/x86_64-linux-gnu/librenamer.so.1")):
            run(["dpkg-deb", "--extract", self.made / f"{package}_{VERSION}_amd64.deb", self.folder / "packages"])
            depends = run(["dpkg-deb", "--field", self.made / f"{package}_{VERSION}_amd64.deb", "Depends"])
            if f"libc6 (>= {glibc_of(self.folder / 'packages' / 'usr' / file)})\n" != depends:
                raise Wrong(f"{package} depends on {depends}")

    def programs_have_no_fixed_place(self):
        """Each start of a program puts it to another place in memory, if the system does so."""
        for tree in (self.tree, self.root / ARM_NAME):
            if not re.search(r"^ +Type: +DYN ", run(["readelf", "--file-header", tree / "bin" / "renamer"]), re.M):
                raise Wrong(f"the program of {tree.name} has one")

    def names_are_seen(self):
        """Debuggers find the names of functions in the shared library, and packed in that of the package."""
        packed, library = self.folder / "packed", self.folder / "names/usr/lib/x86_64-linux-gnu/librenamer.so.1"
        run(["dpkg-deb", "--extract", self.made / PACKAGES[1], self.folder / "names"])
        run(["objcopy", "--dump-section", f".gnu_debugdata={packed}.xz", library, "/dev/null"])
        run(["unxz", f"{packed}.xz"])
        names = [re.findall(r"cn_floor\S*", run(["nm", path])) for path in (self.tree / "lib" / "librenamer.so.1", packed)]
        if len(names[0]) < 5 or names[0] != names[1]:
            raise Wrong(f"they have {len(names[0])} and {len(names[1])} names of cn_floor")

    def lintian_passes(self):
        if not shutil.which("lintian"):
            raise NotTried("lintian is not here")
        run(["lintian", "--allow-root", "--fail-on", "error,warning", *(self.made / name for name in PACKAGES)],
            seconds=600)

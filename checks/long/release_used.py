"""The trials of a release as its users take it (checks/long/release)."""
import os
import pathlib
import re
import shutil
import subprocess
import sys
import textwrap

import library_python
import library_readme
from library_programs import ARM, ARM_CC, ARM_HOME, ARM_RUN, TABLE, NotTried, Wrong, compiled, run, run_by_least
from release_made import Made
from released import (ARM_NAME, AS_ROOT, AT_TOP, PACKAGES, ROOT, VERSION, WHEEL, add_libraries, do_examples, files, in_root,
                      status_of)


class Used(Made):
    """What was unpacked, built with, run and installed."""

    def runs_in_an_empty_root(self):
        """What the Containerfile says, as INSTALL.md shows it, is done by hand."""
        shown = textwrap.indent((self.tree / "Containerfile").read_text(), "    ")
        if f"\n\n{shown}\n" not in (self.pages / "docs" / "INSTALL.md").read_text():
            raise Wrong("INSTALL.md does not show the Containerfile")
        first, copied = (self.tree / "Containerfile").read_text().splitlines()
        source, to = re.fullmatch(r"COPY (\S+) /(\S+)/", copied).groups()
        if first != "FROM scratch":
            raise Wrong("it is not for an empty image")
        (self.folder / "empty" / to).mkdir(parents=True)
        shutil.copy(self.tree / source, self.folder / "empty" / to)
        do_examples(in_root(self.folder / "empty", f"/{to}/{pathlib.Path(source).name}"))

    def runs_in_a_container(self):
        """By the commands that INSTALL.md shows, with another name than a user's own image."""
        works = (tool for tool in filter(shutil.which, ("docker", "podman"))
                 if subprocess.run([tool, "info"], stdin=subprocess.DEVNULL, capture_output=True).returncode == 0)
        if not (tool := next(works, None)):
            raise NotTried("neither docker nor podman runs one here; what its file says was tried in an empty root")
        page, image = (self.pages / "docs" / "INSTALL.md").read_text(), f"renamer-tried-{os.getpid()}"
        build, start = re.search(r"^    docker (build .*)\n    docker (run .*) run .* < ", page, re.M).groups()
        run([tool, *build.replace("-t renamer", f"-t {image}").split()], self.tree)
        do_examples([tool, *start.replace("-i renamer", f"-i {image}").split()])
        run([tool, "image", "rm", image])

    def runs_on_arm(self):
        """The program prints what the page of examples shows, and examples in C run, with each form of the library."""
        if not shutil.which(ARM_RUN) or not shutil.which(ARM_CC):
            raise NotTried(f"{ARM_RUN} or {ARM_CC} is not here")
        tree, emulator = self.root / ARM_NAME, [ARM_RUN, "-L", ARM_HOME]
        do_examples([*emulator, tree / "bin" / "renamer"])
        for library in ("librenamer.a", "librenamer.so.1"):
            made = self.folder / "arm"
            run([ARM_CC, "-I", tree / "include", TABLE.source, "-o", made, tree / "lib" / library, "-lpthread"])
            printed = run([*emulator, "-E", f"LD_LIBRARY_PATH={tree / 'lib'}", made])
            if printed != TABLE.prints:
                raise Wrong(f"with {library} it printed {printed!r}")

    def links_with_musl(self):
        if not shutil.which("musl-gcc"):
            raise NotTried("musl-gcc is not here")
        run(["musl-gcc", "-static", "-I", self.tree / "include", TABLE.source, "-o", self.folder / "with-musl",
             self.tree / "lib" / "librenamer.a"])
        if run([self.folder / "with-musl"]) != TABLE.prints:
            raise Wrong("a program that is linked with musl prints something else")

    def zsh_finds_completions(self):
        if not shutil.which("zsh"):
            raise NotTried("zsh is not here")
        place = "/usr/share/zsh/vendor-completions"
        if place not in run(["zsh", "-fc", "print -l $fpath"]).splitlines():
            raise NotTried(f"the zsh that is here does not look in {place}, as Debian's does")
        run(["dpkg-deb", "--extract", self.made / f"renamer_{VERSION}_amd64.deb", self.folder / "zsh"])
        for place in (self.folder / "zsh" / place[1:], self.tree / "share" / "zsh" / "site-functions"):
            ask = "autoload -U compinit; compinit -uD; print $_comps[renamer] $_comps[renamer-picture]"
            if run(["zsh", "-fc", f"fpath=('{place}' $fpath); {ask}"]) != "_renamer _renamer\n":
                raise Wrong(f"it finds none in {place}")

    def crate_is_packed(self):
        """By cargo, with the archives of both processors; the pack is built and tested where it was unpacked."""
        if not shutil.which("cargo"):
            raise NotTried("cargo is not here")
        shutil.copytree(self.tree / "share" / "renamer" / "rust", self.folder / "crate")
        place = {"CARGO_TARGET_DIR": str(self.folder / "crate-target")}
        run(["cargo", "package", "--offline", "--quiet", "--allow-dirty"], self.folder / "crate", **place)
        packed = run(["tar", "-tzf", self.folder / "crate-target" / "package" / f"renamer-{VERSION}.crate"])
        wanted = ("THIRD-PARTY", *(f"lib/{target}/librenamer.a" for target in ("x86_64-unknown-linux-gnu", ARM)))
        if lacking := [name for name in wanted if f"/{name}\n" not in packed]:
            raise Wrong(f"it lacks {lacking}")

    def programs_are_built_with_it(self):
        """Each program of a page, with the archive, the headers and the crate that were unpacked, and no kit."""
        library_readme.OUT, library_readme.RUST = self.pages / "out", self.tree / "share" / "renamer" / "rust"
        for name in library_readme.PROGRAMS:
            library_readme.check(name, self.folder)

    def checks_itself(self):
        printed = run([self.tree / "share" / "renamer" / "check"], self.folder)
        if not re.search(r"^\d+ passed, 0 failed\n\Z", printed, re.M):
            raise Wrong(printed)
        print("".join(f"the release's own check: {line}\n" for line in printed.splitlines()), end="")

    def installs_itself(self):
        """All that was unpacked is copied, again by the install among the pages, and taken away."""
        place = self.folder / "a place"
        for folder in (self.tree, self.pages):
            run([folder / "install", "/usr"], DESTDIR=str(place))
        lacking = files(self.tree) ^ files(place / "usr")
        if lacking != AT_TOP | {"share/renamer/installed"}:
            raise Wrong(f"it copies otherwise {lacking}")
        run([place / "usr" / "share" / "renamer" / "check"], self.folder)
        run([self.tree / "install", "--remove", "/usr"], DESTDIR=str(place))
        if files(place):
            raise Wrong(f"this is left: {files(place)}")

    def commands_run_elsewhere(self):
        """As pages say: in an empty folder, after `ln -s PREFIX/share/doc/renamer/* .` there."""
        place, before = self.folder / "own", files(self.tree)
        place.mkdir()
        for path in self.pages.iterdir():
            (place / path.name).symlink_to(path)
        run([ROOT / "checks" / "pages" / "examples", place])
        if files(self.tree) != before:
            raise Wrong(f"they write {files(self.tree) - before}")

    def runs_by_the_least_processor(self):
        run_by_least([self.tree / "bin" / "renamer", "--version"])
        run(["dpkg-deb", "--extract", self.made / f"renamer_{VERSION}_amd64.deb", self.folder / "least-root"])
        run_by_least([self.folder / "least-root" / "usr" / "bin" / "renamer", "--version"])
        run_by_least([compiled(TABLE, self.folder, "least", [], out=self.tree)])

    def wheel_is_installed(self):
        """In a new environment, in which the first lines of the package's page run."""
        library_python.is_installed(self.made / WHEEL, self.folder / "environment", self.tree / "bin" / "renamer")

    def packages_come_and_go(self):
        """The packages are installed into a root that has the C library, run there, and are removed."""
        root = self.folder / "debian"
        add_libraries(root, ROOT / "crates" / "renamer" / "out" / "renamer")
        (root / "var/lib/dpkg/info").mkdir(parents=True)
        (root / "var/lib/dpkg/updates").mkdir()
        libc, python = os.confstr("CS_GNU_LIBC_VERSION").split()[1], ".".join(map(str, sys.version_info[:2]))
        (root / "var/lib/dpkg/status").write_text(status_of("libc6", libc) + status_of("python3", python))
        before = files(root)
        dpkg = [*AS_ROOT, "dpkg", f"--root={root}", "--log=/dev/null", "--force-not-root"]
        path = {"PATH": "/usr/sbin:/usr/bin:/sbin:/bin"}
        packages = [self.made / name for name in PACKAGES]
        run([*dpkg, "--install", *packages], **path)
        do_examples(in_root(root, "/usr/bin/renamer"))
        names = [name.partition("_")[0] for name in PACKAGES]
        run([*dpkg, "--verify", *names], **path)
        # There a page is compressed, and each processor has its folder below lib.
        there = {re.sub(r"\.gz$", "", name).replace("lib/x86_64-linux-gnu", "lib") for name in files(root / "usr")}
        there = {name.replace("zsh/vendor-completions", "zsh/site-functions") for name in there}
        lacking = AT_TOP | {f"share/renamer/rust/lib/{ARM}/librenamer.a"}
        if files(self.tree) - there != lacking:
            raise Wrong(f"they lack {files(self.tree) - there}")
        run([*dpkg, "--purge", *names], **path)
        if files(root) != before:
            raise Wrong(f"this is left: {files(root) ^ before}")
        # As in slim images.
        slim = ["--path-exclude=/usr/share/doc/*", "--path-include=/usr/share/doc/*/copyright"]
        run([*dpkg, *slim, "--install", *packages], **path)
        printed = run([root / "usr/share/renamer/check"], self.folder)
        if not re.match(r"not tried, [^\n]*\n(.*\n)?\d passed, 0 failed\n\Z", printed, re.S):
            raise Wrong(printed)

"""The programs of the pages of the bindings, built by the commands that stand there."""
import dataclasses
import re
import shutil

from library_programs import CAREFUL, OTHERS, OUT, ROOT, RUST, STANDARDS, STRICT, Wrong, run

NAMED = re.compile(r"^client (\d+) has the name (\d+)$", re.M)


@dataclasses.dataclass
class Shown:
    """A program on a page: its language, and the clients that it names. One in C or C++ is kept in a file, and the
    command that builds it has this first word."""

    page: str
    language: str
    clients: list
    file: str = ""
    compiler: str = ""

    def text(self):
        return (ROOT / self.page).read_text()

    def program(self):
        """The one program of the page in this language."""
        found = re.findall(rf"^```{self.language}\n(.*?)^```$", self.text(), re.M | re.S)
        if len(found) != 1:
            raise Wrong(f"{self.page} has {len(found)} programs in {self.language}")
        return found[0]

    def line(self, pattern, what):
        """The one line of commands that a pattern finds."""
        found = re.findall(rf"^    ({pattern})$", self.text(), re.M)
        if len(found) != 1:
            raise Wrong(f"{self.page} does not say {what}")
        return found[0]


# The programs, by what their cases are named for. Each of two threads names three clients.
THREADS = [10, 11, 12, 20, 21, 22]
PROGRAMS = {
    "c": Shown("bindings/c/README.md", "c", THREADS, "prog.c", "cc"),
    "cpp": Shown("bindings/c/README.md", "cpp", THREADS, "prog.cpp", "c++"),
    "rust": Shown("bindings/rust/README.md", "rust", THREADS),
}


def run_rust(shown, folder):
    """The program, as one of a crate that depends on the Rust crate as the page says."""
    depends = shown.line(r'renamer = \{ path = ".*" \}', "how a crate depends on this one")
    (folder / "src").mkdir()
    (folder / "src" / "main.rs").write_text(shown.program())
    (folder / "Cargo.toml").write_text('[package]\nname = "prog"\nedition = "2021"\n\n[dependencies]\n'
                                       + depends.replace("bindings/rust", str(RUST)) + "\n")
    return run(["cargo", "run", "--quiet", "--offline"], folder, CARGO_TARGET_DIR=str(folder / "target"))


def run_compiled(shown, folder):
    """The program, in a folder in which out/ is what ./library made. The other compiler takes it by the last standard."""
    pattern = rf"{re.escape(shown.compiler)} .*\b{re.escape(shown.file)} out/.*"
    command = shown.line(pattern, f"how {shown.file} is built")
    (folder / shown.file).write_text(shown.program())
    (folder / "out").symlink_to(OUT)
    careful = [*STRICT, *CAREFUL[shown.compiler]]
    for other in filter(shutil.which, [OTHERS[shown.compiler]]):
        run([other, *command.split()[1:], f"-std={STANDARDS[shown.compiler][-1]}", *careful], folder)
    run([*command.split(), *careful], folder)
    return run([folder / "a.out"])


def recipes_are_tried():
    """Each program in C in docs/EMBEDDING.md stands in a test, word for word."""
    tests = [path.read_text() for path in (ROOT / "bindings" / "c" / "tests").glob("*.c")]
    recipes = re.findall(r"^```c\n(.*?)^```$", (ROOT / "docs" / "EMBEDDING.md").read_text(), re.M | re.S)
    if not recipes:
        raise Wrong("docs/EMBEDDING.md has no program in C")
    for recipe in recipes:
        if not any(recipe in test for test in tests):
            raise Wrong(f"no test in bindings/c/tests has what begins {recipe[:60]!r}")


def check(name, folder):
    """Raises Wrong unless the program of this name gives its clients the names from 0 on."""
    shown = PROGRAMS[name]
    folder = folder / f"page-{name}"
    folder.mkdir()
    printed = run_rust(shown, folder) if shown.language == "rust" else run_compiled(shown, folder)
    found = NAMED.findall(printed)
    clients, names = sorted(int(client) for client, _ in found), sorted(int(name) for _, name in found)
    if clients != shown.clients or names != list(range(len(shown.clients))):
        raise Wrong(f"it does not name its clients: {printed!r}")

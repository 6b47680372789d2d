"""Builds a small program over crates of this repository, in a temporary copy of them.

A source file of the language may stand in a crate alone, and a crate for a measurement would be part of the gate, so the
scripts of tools/ keep the text of their programs and build them with this module. It also finds linuxulator itself."""

import pathlib
import shutil
import subprocess
import sys
import tempfile

ROOT = pathlib.Path(__file__).resolve().parent.parent


def skip_without(*tools):
    """Ends the script with one line where a tool is missing."""
    for tool in tools:
        if shutil.which(tool) is None:
            print(f"{pathlib.Path(sys.argv[0]).name}: skipped, since {tool} is not here")
            sys.exit(0)


def linuxulator():
    """The built program. The shell script builds it where that is needed."""
    if subprocess.run([ROOT / "linuxulator", "--version"], stdout=subprocess.DEVNULL).returncode != 0:
        sys.exit("linuxulator could not be built")
    return ROOT / "crates/linuxulator/out/linuxulator"


def lx_play():
    """The built program lx_play, which `rt run` builds: it runs a guest in the Linux machine alone."""
    crate = ROOT / "crates/lx_play"
    built = subprocess.run(["rt", "run"], cwd=crate, stdin=subprocess.DEVNULL, capture_output=True, text=True)
    path = crate / "out/lx_play"
    if not path.exists():
        print(built.stdout + built.stderr)
        sys.exit("lx_play could not be built")
    return path


def crates_below(names):
    """The lines of crates.txt for these crates and all those below them."""
    lines = {}
    for line in (ROOT / "crates.txt").read_text().splitlines():
        line = line.split("#")[0].strip()
        if line:
            name, _, below = line.partition(":")
            lines[name.split()[0]] = (line, below.split())
    found, left = {}, list(names)
    while left:
        name = left.pop()
        if name in lines and name not in found:
            found[name] = lines[name][0]
            left += lines[name][1]
    return found


class Program:
    """A program with this text that uses these crates. It is proved, as every crate is, and built by LLVM.

    `rt ci` builds it, since that takes the libraries which it has proved before on this machine, as in a run of the gate, and
    keeps those that it proves now. It also runs the program, on no input, whose output isn't compared with anything here."""

    def __init__(self, name, text, crates):
        self.folder = tempfile.TemporaryDirectory(prefix=name)
        root = pathlib.Path(self.folder.name)
        lines = crates_below(crates)
        for crate in lines:
            shutil.copytree(ROOT / "crates" / crate, root / "crates" / crate, ignore=shutil.ignore_patterns("out", "must-fail"))
        shutil.copy(ROOT / "HANDLES", root)
        source = root / "crates" / name / "src"
        source.mkdir(parents=True)
        (source / "main.rt").write_text(text)
        (root / "crates.txt").write_text("\n".join(lines.values()) + f"\n{name}: {' '.join(crates)}\n")
        subprocess.run(["rt", "fmt"], cwd=source.parent, stdin=subprocess.DEVNULL, capture_output=True)
        built = subprocess.run(["rt", "ci"], cwd=root, stdin=subprocess.DEVNULL, capture_output=True, text=True)
        self.path = source.parent / "out" / name
        if not self.path.exists():
            print(built.stdout + built.stderr)
            sys.exit(f"{name} could not be built")

    def run(self, stdin):
        """What the program writes for this input."""
        return subprocess.run([self.path], input=stdin, capture_output=True, check=True).stdout

"""Runs the scripts of a folder of compare/ one after the other, for the `run` of each folder."""
import argparse
import contextlib
import shlex
import shutil
import subprocess
import sys
import tempfile
import time
from dataclasses import dataclass
from pathlib import Path

TOP = Path(__file__).resolve().parents[2]
LIBRARY = TOP / "crates/jalwedd_c/out/libjalwedd_c.a"  # as `rt lib` leaves it
PACKAGERS = ("cc", "ld", "ar", "objcopy", "rt")


@dataclass(frozen=True)
class Script:
    """A script of a folder: its words, in which `{program}`, `{package}` and `{earlier}` stand for what is given, the
    commands without which it is left out, and a file that the package has to have."""

    words: str
    needs: str = ""
    packaged: str = ""

    @property
    def name(self):
        return self.words.split()[0]

    def takes(self, what):
        return f"{{{what}}}" in self.words

    def lacks(self, given):
        """What it cannot run without and is missing, or nothing."""
        missing = [tool for tool in self.needs.split() if not shutil.which(tool)]
        if missing:
            return f"it needs {', '.join(missing)}"
        if self.takes("earlier") and not given["earlier"]:
            return "it needs --earlier FOLDER"
        if self.takes("package") and not given["package"]:
            return f"it needs --package FOLDER: {given['why']}"
        if self.packaged and not (given["package"] / self.packaged).exists():
            return f"the package has no {self.packaged}"
        return ""


def why_not_built():
    """Why no package can be built here, or nothing."""
    missing = [tool for tool in PACKAGERS if not shutil.which(tool)]
    return f"there is no {', '.join(missing)}" if missing else "" if LIBRARY.exists() else f"there is no {LIBRARY}"


@contextlib.contextmanager
def package(given):
    """The package that is given, else one that is built for as long as it is needed, or None, and why there is none."""
    with tempfile.TemporaryDirectory() as room:
        why = "" if given else why_not_built()
        if given or why:
            yield given and given.resolve(), why
        else:
            subprocess.run([TOP / "package/build", f"{room}/package"], check=True, stdout=subprocess.DEVNULL)
            yield Path(room) / "package", ""


def chosen(scripts, only):
    """Each script that is named, with the options after its name, or all of them."""
    by_name = {script.name: script for script in scripts}
    words = [shlex.split(name) for name in only] or [[name] for name in by_name]
    unknown = [name for name, *_ in words if name not in by_name]
    if unknown:
        sys.exit(f"there is no {', '.join(unknown)}: {', '.join(by_name)}")
    return [(by_name[name], more) for name, *more in words]


def status_of(words, brief):
    """Runs a command and passes its output on, or, if `brief`, only the last line of one that passes."""
    if not brief:
        return subprocess.run(words).returncode
    done = subprocess.run(words, stdout=subprocess.PIPE, stderr=subprocess.STDOUT, text=True)
    lines = done.stdout.splitlines()
    print("\n".join(lines if done.returncode else lines[-1:]), flush=True)
    return done.returncode


def run_one(folder, script, more, given):
    """Runs a script, and gives what is to be told of it: that it passed, failed, or was left out."""
    print(f"== {script.name}", flush=True)
    if why := script.lacks(given):
        print(f"{script.name}: left out: {why}", flush=True)
        return "left out"
    began = time.monotonic()
    words = [word.format(**given) for word in script.words.split()]
    status = status_of([folder / words[0], *words[1:], *more], given["brief"])
    print(f"{script.name}: status {status}, {time.monotonic() - began:.0f} seconds", flush=True)
    return "failed" if status else "passed"


def arguments(usage, scripts):
    parser = argparse.ArgumentParser(usage=usage)
    if any(script.takes("program") for script in scripts):
        parser.add_argument("program", nargs="?", type=Path, default=TOP / "crates/rtcp_run/out/rtcp_run")
    if any(script.takes("package") for script in scripts):
        parser.add_argument("--package", type=Path)
    if any(script.takes("earlier") for script in scripts):
        parser.add_argument("--earlier", type=Path)
    parser.add_argument("--only", action="append", default=[])
    parser.add_argument("--brief", action="store_true")
    return parser.parse_args()


def whole(path):
    """The whole path of what is there, else what is given: the program may be a command."""
    return path.resolve() if path.exists() else path


def run(folder, usage, scripts):
    """Runs the scripts that the command line names, or all, and exits: with 1 if one of them failed."""
    given = arguments(usage, scripts)
    words = {name: path and whole(path) for name, path in vars(given).items() if name in ("program", "earlier")}
    words["brief"] = given.brief
    wanted = chosen(scripts, given.only)
    told = {"passed": [], "failed": [], "left out": []}
    needs_package = any(script.takes("package") for script, _ in wanted)
    with package(given.package) if needs_package else contextlib.nullcontext((None, "")) as (folder_of, why):
        for script, more in wanted:
            told[run_one(folder, script, more, {**words, "package": folder_of, "why": why})].append(script.name)
    print(f"{folder.name}: " + "; ".join(f"{how}: {', '.join(names)}" for how, names in told.items() if names))
    sys.exit(bool(told["failed"]))

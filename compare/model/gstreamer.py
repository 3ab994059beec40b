"""Programs over GStreamer's rtpsession, and over the library of a package, for compare/stacks."""
import shutil
import subprocess
import sys
from pathlib import Path

FLAGS = ["-std=gnu11", "-O2", "-Wall", "-Wextra", f"-I{Path(__file__).resolve().parents[1]}/stacks"]
DEBIAN = ["gcc", "pkg-config", "libgstreamer1.0-dev", "libgstreamer-plugins-base1.0-dev", "libunwind-dev",
          "gstreamer1.0-plugins-good"]
GSTREAMER = ["gstreamer-check-1.0", "gstreamer-net-1.0", "gstreamer-1.0", "gio-2.0"]


def install():
    has_all = all(map(shutil.which, ["gcc", "pkg-config"]))
    if not has_all or subprocess.run(["pkg-config", "--cflags", *GSTREAMER], capture_output=True).returncode:
        subprocess.run(["apt-get", "install", "-y", "--no-install-recommends", *DEBIAN], check=True,
                       stdout=subprocess.DEVNULL)


def output(words, lines):
    """The lines of a program's output, in words, if it is given these."""
    done = subprocess.run(words, input="\n".join(lines) + "\n", capture_output=True, text=True)
    if done.returncode:
        sys.exit(f"{words[0]} ended with status {done.returncode}: {done.stderr}")
    return [line.split() for line in done.stdout.splitlines()]


def build(source, program, package=None, with_gstreamer=True):
    """The program of a source file, over the library of a package or over GStreamer or both."""
    more = [f"-I{package}/include", f"{package}/lib/libjalwedd.a"] if package else []
    if with_gstreamer:
        flags = subprocess.run(["pkg-config", "--cflags", "--libs", *GSTREAMER], check=True, stdout=subprocess.PIPE)
        more += flags.stdout.decode().split()
    subprocess.run(["gcc", *FLAGS, str(source), "-o", str(program), *more], check=True)
    return str(program)

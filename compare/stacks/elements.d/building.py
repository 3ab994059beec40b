"""Builds the plugin of integrations/gstreamer over a package, and the programs beside this file."""
import os
import shutil
import subprocess
from pathlib import Path

HERE = Path(__file__).resolve().parent
TOP = HERE.parents[2]
DEBIAN = ["meson", "gcc", "pkg-config", "libunwind-dev", "libgstreamer1.0-dev",
          "libgstreamer-plugins-base1.0-dev", "gstreamer1.0-tools", "gstreamer1.0-plugins-base",
          "gstreamer1.0-plugins-good", "gstreamer1.0-plugins-bad"]
LIBRARIES = ["gstreamer-check-1.0", "gstreamer-rtp-1.0", "gstreamer-net-1.0", "gstreamer-video-1.0",
             "gio-2.0"]
FLAGS = ["-std=gnu11", "-O2", "-g", "-Wall", "-Wextra", "-Wno-unused-parameter"]
MEMORY, THREADS = "address,undefined", "thread"  # sanitizers


def has_all():
    """Whether the tools, the headers and GStreamer's SRTP, which its bad plugins have, are there."""
    tools = ["meson", "gcc", "pkg-config", "gst-launch-1.0", "gst-inspect-1.0"]
    asked = [["pkg-config", "--cflags", *LIBRARIES], ["gst-inspect-1.0", "--exists", "srtpenc"]]
    return all(map(shutil.which, tools)) and not any(
        subprocess.run(words, capture_output=True).returncode for words in asked)


def install():
    if not has_all():
        subprocess.run(["apt-get", "install", "-y", "--no-install-recommends", *DEBIAN], check=True,
                       stdout=subprocess.DEVNULL)


def flags():
    found = subprocess.run(["pkg-config", "--cflags", "--libs", *LIBRARIES], check=True,
                           stdout=subprocess.PIPE, text=True)
    return found.stdout.split()


def compiled(source, program, *more):
    """The program of a source file over GStreamer."""
    subprocess.run(["gcc", *FLAGS, *more, str(source), "-o", str(program), *flags()], check=True)
    return program


class Build:
    """The plugin in a folder, plain or with sanitizers, and an environment that has it alone."""

    def __init__(self, package, folder, sanitizers=""):
        self.folder, self.sanitizers = folder, sanitizers
        options = [f"-Db_sanitize={sanitizers}", "-Db_lundef=false"] if sanitizers else []
        self.run("meson", "setup", *options, folder, TOP / "integrations/gstreamer",
                 PKG_CONFIG_PATH=f"{package}/lib/pkgconfig")
        self.run("meson", "compile", "-j", "2", "-C", folder)
        if not sanitizers:  # no process then looks for plugins beside the others
            subprocess.run(["gst-inspect-1.0"], env=self.environment(), stdout=subprocess.DEVNULL)

    @staticmethod
    def run(*words, **variables):
        done = subprocess.run(list(map(str, words)), env=os.environ | variables, stdout=subprocess.PIPE,
                              stderr=subprocess.STDOUT, text=True)
        if done.returncode:
            raise SystemExit(f"{words[0]} failed: {done.stdout[-2000:]}")

    @property
    def plugin(self):
        return self.folder / "libgstjalwedd.so"

    def environment(self, **more):
        """The variables of a process that uses the plugin. Its registry is one of this build."""
        own = {"GST_PLUGIN_PATH": str(self.folder), "GST_REGISTRY": str(self.folder / "registry"),
               "GST_REGISTRY_FORK": "no", "ASAN_OPTIONS": "detect_leaks=0",
               "UBSAN_OPTIONS": "halt_on_error=1", "G_SLICE": "always-malloc",
               "TSAN_OPTIONS": "ignore_noninstrumented_modules=1 exitcode=66 history_size=4"}
        return os.environ | own | more

    def program(self, name):
        """A program of this folder, compiled once."""
        made = self.folder / name
        more = [f"-fsanitize={self.sanitizers}"] if self.sanitizers else []
        if self.sanitizers == THREADS:
            more += [str(HERE / "locks.c"), "-rdynamic"]
        return made if made.exists() else compiled(HERE / f"{name}.c", made, *more)

"""The pipelines of docs/GSTREAMER.md, run as they are pasted."""
import contextlib
import os
import re
import shutil
import signal
import subprocess

import building

PAGE = building.TOP / "docs/GSTREAMER.md"
README = building.TOP / "README.md"
PLAYED = 8  # seconds


def blocks(page):
    """The indented blocks of a page, by the heading that they stand under."""
    for section in re.split(r"^## ", page.read_text(), flags=re.M)[1:]:
        title = section.splitlines()[0]
        for block in re.findall(r"(?:^    .+\n)+", section, re.M):
            yield title, re.sub(r"^    ", "", block, flags=re.M)


def ffmpeg_of_readme():
    """The command of README.md that sends."""
    block = next(block for _, block in blocks(README) if block.startswith("ffmpeg"))
    return block.split(" &\n")[0]


def run(words, folder, environment, seconds):
    """What a pasted block prints, which ctrl-C ends after some seconds. A shell's background ignores that,
    and is ended after it."""
    process = subprocess.Popen(["bash", "-c", words], cwd=folder, env=environment, stdout=subprocess.PIPE,
                               stderr=subprocess.STDOUT, text=True, start_new_session=True)
    for ends in (signal.SIGINT, signal.SIGTERM, signal.SIGKILL):
        try:
            return process.communicate(timeout=seconds)[0]
        except subprocess.TimeoutExpired:
            os.killpg(process.pid, ends)
    return process.communicate()[0]


def faults_of(title, text, folder):
    if re.search(r"ERROR|CRITICAL|erroneous pipeline|no element", text):
        yield f"{title}: {text[-400:]}"
    if "PLAYING" not in text:
        yield f"{title}: it did not play: {text[-400:]}"
    if title == "Recorder":
        sizes = {name: (folder / name).stat().st_size if (folder / name).exists() else 0
                 for name in ("call.wav", "call", "call.sh")}
        if sizes["call.wav"] < 8_000 or not sizes["call"] or not sizes["call.sh"]:
            yield f"{title}: files of {sizes} octets"


@contextlib.contextmanager
def sender():
    """FFmpeg sends, as README.md says."""
    process = subprocess.Popen(["bash", "-c", ffmpeg_of_readme()], stdin=subprocess.DEVNULL,
                               stdout=subprocess.DEVNULL, start_new_session=True)
    yield
    os.killpg(process.pid, signal.SIGTERM)
    process.wait()


def check(build, folder):
    """What is wrong with the three pipelines. The first two hear the sender of README.md."""
    environment = build.environment()
    found = dict(block for block in blocks(PAGE) if block[1].startswith(("gst-launch", "call()")))
    faults = [] if len(found) == 3 else [f"the page has {len(found)} pipelines: {', '.join(found)}"]
    for title, words in found.items():
        hears = not words.startswith("call()")
        if hears and not shutil.which("ffmpeg"):
            print(f"  {title}: left out, ffmpeg is not installed")
            continue
        with sender() if hears else contextlib.nullcontext():
            faults += faults_of(title, run(words, folder, environment, PLAYED), folder)
    return faults

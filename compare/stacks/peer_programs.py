"""The peers of compare/stacks/peers: the Debian packages that give them, and the commands that make each of them send
mu-law audio of 20 milliseconds a packet and receive the player's."""
import os
import re
import shutil
import signal
import subprocess
import sys
import wave
from pathlib import Path

from peer_relay import PLAYER
from relay import HOST

SDP = """v=0
o=- 0 0 IN {family} {host}
s=-
c=IN {family} {host}
t=0 0
m=audio {port} RTP/AVP 0
"""


BARESIP = """sip_listen %s
rtp_ports %d-%d
audio_source aufile,%s
module_path %s
module g711.so
module aufile.so
module_tmp account.so
module_app menu.so
"""


def silence(session):
    """A file that has more silence than the session lasts."""
    path = session.room / f"{session.name}.wav"
    with wave.open(str(path), "wb") as made:
        made.setparams((1, 2, 8_000, 0, "NONE", "not compressed"))
        made.writeframes(bytes(2 * 8_000 * (session.seconds + 5)))
    return path


class Peer:
    name, title, packages, asks, version_in = "", "", [], [], r"(\d[\w.+-]*)"
    stop = signal.SIGINT
    shows_cname = False  # whether it can be seen from outside which CNAME it has of us
    options = {}  # of its processes

    def version(self):
        """Its version, or None if it is not installed."""
        if shutil.which(self.asks[0]) is None:
            return None
        told = subprocess.run(self.asks, capture_output=True, text=True, **self.options)
        found = re.search(self.version_in, told.stdout)
        return found[1] if found else None

    def build(self, source, room):
        """Builds its program, if it has one in `source`, in `room`."""

    def commands(self, session):
        """The commands of its programs."""
        raise NotImplementedError


class GStreamer(Peer):
    name, title, asks = "gstreamer", "GStreamer's rtpbin", ["gst-launch-1.0", "--version"]
    packages = ["gstreamer1.0-tools", "gstreamer1.0-plugins-base", "gstreamer1.0-plugins-good"]
    version_in = r"GStreamer ([\d.]+)"
    shows_cname = True
    options = {"env": os.environ | {"GST_DEBUG": "rtpsession:5", "GST_DEBUG_NO_COLOR": "1"}}

    def commands(self, session):
        packets = 50 * (session.seconds - 1)  # its BYE comes at the end of the audio, not at that of the program
        yield f"""gst-launch-1.0 rtpbin name=bin
            audiotestsrc is-live=true samplesperbuffer=160 num-buffers={packets} ! audio/x-raw,rate=8000,channels=1
                ! mulawenc ! rtppcmupay ! bin.send_rtp_sink_0
            bin.send_rtp_src_0 ! udpsink host={HOST} port={session.remote} sync=false
            bin.send_rtcp_src_0 ! udpsink host={HOST} port={session.remote + 1} sync=false async=false
            udpsrc address={HOST} port={session.local}
                caps=application/x-rtp,media=audio,clock-rate=8000,encoding-name=PCMU ! bin.recv_rtp_sink_0
            udpsrc address={HOST} port={session.local + 1} ! bin.recv_rtcp_sink_0
            bin. ! rtppcmudepay ! fakesink async=false""".split()


class FFmpeg(Peer):
    """A program that sends and another one that receives, each with an SSRC of its own."""
    name, title, packages, asks = "ffmpeg", "FFmpeg", ["ffmpeg"], ["ffmpeg", "-version"]
    version_in = r"version ([\d.]+)"

    def commands(self, session):
        family, host = ("IP6", f"[{session.host}]") if ":" in session.host else ("IP4", session.host)
        sdp = SDP.format(family=family, host=session.host, port=session.local)
        yield [*"ffmpeg -hide_banner -loglevel warning -re -f lavfi -i".split(),
               "sine=frequency=440:sample_rate=8000:samples_per_frame=160", *"-c:a pcm_mulaw -ac 1 -f rtp".split(),
               f"rtp://{host}:{session.remote}?rtcpport={session.remote + 1}&localrtpport={session.spare}"
               f"&localrtcpport={session.spare + 1}"]
        yield [*"ffmpeg -hide_banner -loglevel warning -protocol_whitelist file,udp,rtp".split(),
               *"-sdp_flags rtcp_to_source -i".split(), session.file("sdp", sdp), "-f", "null", "-"]


class Program(Peer):
    """A small program of this folder over a library, built with what pkg-config tells of it."""
    library, compiler, shows_cname = "", ["cc", "-std=gnu11"], True

    @property
    def asks(self):
        return ["pkg-config", "--modversion", self.library]

    def build(self, source, room):
        flags = subprocess.check_output(["pkg-config", "--cflags", "--libs", self.library], text=True).split()
        suffix = "c" if self.compiler[0] == "cc" else "cpp"
        subprocess.run([*self.compiler, "-O1", "-Wall", "-Wextra", source / f"peer_{self.name}.{suffix}", *flags,
                        "-o", room / f"peer_{self.name}"], check=True)

    def commands(self, session):
        yield [session.room / f"peer_{self.name}", session.local, session.remote, session.host]


class Ortp(Program):
    name, title, packages, library = "ortp", "oRTP", ["libortp-dev"], "ortp"


class CcRtp(Program):
    name, title, packages, library = "ccrtp", "ccRTP", ["libccrtp-dev"], "libccrtp"
    compiler = ["c++", "-std=c++17"]


class Libre(Program):
    name, title, packages, library = "libre", "libre", ["libre-dev"], "libre"


class Vlc(Peer):
    """A program that sends and another one that receives. It does not run as root."""
    name, title, packages, asks = "vlc", "VLC", ["vlc-bin", "vlc-plugin-base"], ["vlc", "--version"]
    version_in = r"VLC version ([\d.]+)"
    as_other = {"user": "nobody", "group": "nogroup", "extra_groups": []} if os.geteuid() == 0 else {}
    options = {"env": os.environ | {"HOME": "/tmp"}, **as_other}

    def commands(self, session):
        session.room.chmod(0o755)
        vlc = "vlc -I dummy --no-video --aout adummy".split()
        yield [*vlc, "--mtu", "172", silence(session), "--sout",
               f"#transcode{{acodec=ulaw,channels=1,samplerate=8000}}:rtp{{dst={HOST},port={session.remote}}}"]
        yield [*vlc, f"rtp://{HOST}:{session.local}"]


class Baresip(Peer):
    """A telephone that answers each call, and compare/stacks/peer_call.py, which calls it."""
    name, title, packages, asks = "baresip", "baresip", ["baresip-core"], ["baresip", "-h"]
    version_in = r"v([\d.]+)"

    def commands(self, session):
        folder, sip = session.room / f"{session.name}-folder", session.spare
        folder.mkdir(exist_ok=True)
        modules = next(Path("/usr/lib").glob("**/baresip/modules"))
        (folder / "config").write_text(BARESIP % (f"{HOST}:{sip}", session.local, session.local + 2, silence(session),
                                                  modules))
        (folder / "accounts").write_text(f"<sip:peer@{HOST}:{sip};transport=udp>;regint=0;answermode=auto"
                                         ";audio_codecs=PCMU\n")
        (folder / "contacts").write_text("")
        yield ["baresip", "-f", folder]
        yield [sys.executable, Path(__file__).parent / "peer_call.py", sip, session.remote]


class Known(Peer):
    """compare/stacks/peer_known.py, whose figures are known: for `compare/stacks/peers --check`."""

    def __init__(self, name, *options, around=False, again=False):
        self.name, self.title, self.words, self.around, self.again = name, name, options, around, again

    def commands(self, session):
        words = [sys.executable, Path(__file__).parent / "peer_known.py", session.local, session.remote, *self.words]
        if self.around:
            words += ["--around", session.to[PLAYER]]
        if self.again:
            words += ["--again", session.at[PLAYER] + 1]
        yield words


KNOWN = [Known("known", "--skip", "5", "--refused", "--bye", "BYE-SDES"),
         Known("known-off", "--off", "10", "--bye", "RR-SDES-BYE"),
         Known("known-around", "--skip", "5", around=True),
         Known("known-again", again=True)]
PEERS = [Ortp(), CcRtp(), Libre(), Baresip(), GStreamer(), FFmpeg(), Vlc()]

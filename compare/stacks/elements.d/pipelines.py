"""Pipelines in gst-launch's language, for elements that stand in one another's place."""
import itertools
from dataclasses import dataclass

AUDIO = ("audiotestsrc is-live=true wave=ticks {more} ! audio/x-raw,rate=8000,channels=1 ! alawenc ! "
         "rtppcmapay pt=8 min-ptime=20000000 max-ptime=20000000 {payloader}")
CAPS = 'caps="application/x-rtp,media=audio,clock-rate=8000,encoding-name=PCMA,payload=8"'
RTCP_CAPS = "caps=application/x-rtcp"
NOW = "sync=false async=false"
KEY = "000102030405060708090a0b0c0d0e0f101112131415161718191a1b1c1d"  # play.c has it too
FIRST_PORT, PORTS_EACH = 25_000, 20  # below those that Linux gives to sockets without a port
bases = itertools.count(FIRST_PORT, PORTS_EACH)


@dataclass(frozen=True)
class Side:
    """One side of a session: where it hears RTP and RTCP, and on which host."""

    rtp: int
    rtcp: int
    host: str = "127.0.0.1"


def begin_at(port):
    """The ports are those from this one on."""
    global bases
    bases = itertools.count(port, PORTS_EACH)


def two_sides(host="127.0.0.1"):
    base = next(bases)
    return Side(base, base + 1, host), Side(base + 2, base + 3, host)


def next_port():
    return next(bases)


def pad(element, name, what):
    """A pad of an element: those of a bin have the number of a session."""
    return f"{name}.{what}_0" if element.endswith("bin") else f"{name}.{what}"


def begun(element, name, properties=""):
    return f"{element} name={name} {properties} "


def sends(element, name, to, more="", payloader=""):
    """Sends RTP and its own RTCP to a side."""
    return (f"{AUDIO.format(more=more, payloader=payloader)} ! {pad(element, name, 'send_rtp_sink')} "
            f"{pad(element, name, 'send_rtp_src')} ! udpsink host={to.host} port={to.rtp} ")


def reports(element, name, to):
    return f"{pad(element, name, 'send_rtcp_src')} ! udpsink host={to.host} port={to.rtcp} {NOW} "


def hears_rtp(element, name, at):
    source = f"{name}." if element.endswith("bin") else f"{name}.recv_rtp_src"
    return (f"udpsrc address={at.host} port={at.rtp} {CAPS} ! {pad(element, name, 'recv_rtp_sink')} "
            f"{source} ! rtppcmadepay ! fakesink async=false ")


def hears_rtcp(element, name, at):
    return f"udpsrc address={at.host} port={at.rtcp} {RTCP_CAPS} ! {pad(element, name, 'recv_rtcp_sink')} "


def sender(element, name, own, other, **more):
    return (begun(element, name) + sends(element, name, other, **more) + reports(element, name, other)
            + hears_rtcp(element, name, own))


def receiver(element, name, own, other, properties=""):
    return (begun(element, name, properties) + hears_rtp(element, name, own) + hears_rtcp(element, name, own)
            + reports(element, name, other))


def duplex(element, name, own, other):
    """Sends first: a bin's pads that come are linked to what asks for them in this order."""
    return sender(element, name, own, other) + hears_rtp(element, name, own)


def secured(element, name, pipeline):
    """A pipeline whose RTP and RTCP go over SRTP. A bin asks for coders itself; beside a session they stand."""
    pipeline = pipeline.replace("application/x-rt", "application/x-srt")
    if element.endswith("bin"):
        return pipeline.replace(begun(element, name), begun(element, name, "rtp-profile=savp"), 1)
    for kind in ("rtp", "rtcp"):
        sent, heard = f"{name}.send_{kind}_src ! ", f"! {name}.recv_{kind}_sink "
        pipeline = pipeline.replace(sent, f"{sent}e{name}.{kind}_sink_0 e{name}.{kind}_src_0 ! ")
        pipeline = pipeline.replace(heard, f"! d{name}.{kind}_sink d{name}.{kind}_src {heard}")
    return f"{pipeline} srtpenc name=e{name} key={KEY} srtpdec name=d{name} "

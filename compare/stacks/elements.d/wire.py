"""RTP and RTCP by plain sockets, for what elements do not send."""
import socket
import struct
import threading
import time

from relay import queued_at

NTP_OF_1970 = 2_208_988_800  # seconds
HOST = "127.0.0.1"
SENDER_REPORT, BYE = 200, 203


def packet(ssrc, sequence, timestamp, octets=160, payload_type=8):
    head = struct.pack(">BBHII", 0x80, payload_type, sequence % 2**16, timestamp % 2**32, ssrc)
    return head + bytes(octets)


def wait_for(port):
    """Until somebody hears what comes to a port, and plays."""
    for _ in range(100):
        if queued_at(port) is not None:
            break
        time.sleep(0.1)
    time.sleep(1)


def send(port, octets, from_port=0, from_host=HOST):
    """Sends a datagram, from a port if one is given."""
    with socket.socket(socket.AF_INET, socket.SOCK_DGRAM) as sock:
        if from_port:
            sock.setsockopt(socket.SOL_SOCKET, socket.SO_REUSEADDR, 1)
            sock.bind((from_host, from_port))
        sock.sendto(octets, (HOST, port))


def described(ssrc, items):
    """A receiver report without blocks, and a description of its source by items of kind and text."""
    chunk = struct.pack(">I", ssrc) + b"".join(bytes([kind, len(text)]) + text for kind, text in items)
    chunk += bytes(4 - len(chunk) % 4)
    head = struct.pack(">BBH", 0x81, 202, len(chunk) // 4)
    return struct.pack(">BBHI", 0x80, 201, 1, ssrc) + head + chunk


def parts(compound):
    """The packets of a compound: their types and octets."""
    while len(compound) >= 4:
        size = 4 * int.from_bytes(compound[2:4], "big") + 4
        yield compound[1], compound[:size]
        compound = compound[size:]


def sender_reports(compounds):
    """Of each sender report the NTP time in seconds, and the RTP timestamp."""
    for compound in compounds:
        for kind, octets in parts(compound):
            if kind == SENDER_REPORT:
                seconds, fraction, timestamp = struct.unpack(">III", octets[8:20])
                yield seconds + fraction / 2**32, timestamp


def goodbyes(compounds):
    """The SSRCs that BYE packets name."""
    for compound in compounds:
        for kind, octets in parts(compound):
            if kind == BYE:
                yield from struct.unpack(f">{octets[0] & 31}I", octets[4:4 + 4 * (octets[0] & 31)])


class Listener(threading.Thread):
    """Keeps the datagrams that come to a port, with the moments when they came."""

    def __init__(self, port):
        super().__init__(daemon=True)
        self.socket = socket.socket(socket.AF_INET, socket.SOCK_DGRAM)
        self.socket.bind((HOST, port))
        self.port, self.datagrams, self.moments = port, [], []
        self.start()

    def run(self):
        while True:
            self.datagrams.append(self.socket.recv(65_535))
            self.moments.append(time.time())

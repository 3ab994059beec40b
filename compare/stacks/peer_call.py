"""Calls a SIP telephone, and offers it mu-law audio at a port of ours: this makes it take part in the session. Ends a
second after it is interrupted. usage: compare/stacks/peer_call.py SIP-PORT OUR-RTP-PORT      on 127.0.0.1"""
import re
import signal
import socket
import sys
import time
from pathlib import Path

sys.path.insert(0, str(Path(__file__).resolve().parents[1] / "model"))

from relay import HOST

SDP = f"""v=0
o=- 1 1 IN IP4 {HOST}
s=-
c=IN IP4 {HOST}
t=0 0
m=audio %d RTP/AVP 0
a=rtpmap:0 PCMU/8000
a=ptime:20
a=sendrecv
"""
MOST_WAITING = 0.5  # seconds between two attempts to call, until the telephone answers


def message(first_line, headers, body=""):
    lines = [first_line, *headers, f"Content-Length: {len(body)}", "", body]
    return "\r\n".join(lines).encode()


class Call:
    def __init__(self, telephone, rtp):
        self.socket = socket.socket(socket.AF_INET, socket.SOCK_DGRAM)
        self.socket.bind((HOST, 0))
        self.socket.settimeout(MOST_WAITING)
        self.telephone, self.own = (HOST, telephone), f"sip:player@{HOST}:{self.socket.getsockname()[1]}"
        self.uri, self.sdp = f"sip:peer@{HOST}:{telephone}", (SDP % rtp).replace("\n", "\r\n")
        self.is_over = False

    def headers(self, method, to_tag=""):
        port = self.socket.getsockname()[1]
        return [f"Via: SIP/2.0/UDP {HOST}:{port};branch=z9hG4bK-{method}-{port};rport", "Max-Forwards: 70",
                f"From: <{self.own}>;tag=1", f"To: <{self.uri}>{to_tag}", f"Call-ID: {port}@{HOST}",
                f"CSeq: 1 {method}", f"Contact: <{self.own}>"]

    def send(self, *parts):
        self.socket.sendto(message(*parts), self.telephone)

    def invite(self):
        self.send(f"INVITE {self.uri} SIP/2.0", [*self.headers("INVITE"), "Content-Type: application/sdp"], self.sdp)

    def run(self):
        self.invite()
        is_heard = False
        while not self.is_over:
            try:
                text = self.socket.recv(65_535).decode()
            except TimeoutError:
                if not is_heard:
                    self.invite()
                continue
            is_heard = True
            self.take(text)

    def take(self, text):
        """An answer to the INVITE, or a request of the telephone."""
        if text.startswith("SIP/2.0 200") and re.search(r"^CSeq: *\d+ INVITE", text, re.M | re.I):
            tag = re.search(r"^To:.*?(;tag=[^;\s]+)", text, re.M | re.I)[1]
            print(text)
            self.send(f"ACK {self.uri} SIP/2.0", self.headers("ACK", tag))
        elif not text.startswith("SIP/2.0"):
            kept = re.findall(r"^(?:Via|From|To|Call-ID|CSeq):.*$", text, re.M | re.I)
            self.send("SIP/2.0 200 OK", [line.strip() for line in kept])


def main():
    call = Call(int(sys.argv[1]), int(sys.argv[2]))

    def stop(*_):
        time.sleep(1)  # in which the telephone hangs up
        call.is_over = True

    signal.signal(signal.SIGINT, stop)
    call.run()


main()

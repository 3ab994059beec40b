"""Sends RTP at an even pace, pausing while much of it is still unreceived, and a sender report each second, until it is
killed. usage: compare/model/sender.py RTP-PORT RTCP-PORT"""
import socket
import struct
import sys
import time

from relay import HOST, NTP_OF_1970, queued_at

RATE, SSRC, CLOCK = 2_000, 0xFA57, 90_000  # packets a second; units of the media's clock a second
PAYLOAD = bytes(200)
MOST_QUEUED = 50_000  # octets of the some 200,000 for which a socket has room
TOGETHER = 20  # packets between two looks at that


def report(number):
    """A sender report after so many packets, with a CNAME of no octets."""
    ntp = int((time.time() + NTP_OF_1970) * 2**32)
    sent = struct.pack(">BBHIQIII", 0x80, 200, 6, SSRC, ntp, timestamp(number), number, number * len(PAYLOAD))
    return sent + struct.pack(">BBHIBBxx", 0x81, 202, 2, SSRC, 1, 0)


def timestamp(number):
    return number * (CLOCK // RATE) % 2**32


def send(rtp, rtcp):
    out = socket.socket(socket.AF_INET, socket.SOCK_DGRAM)
    began, number = time.monotonic(), 0
    while True:
        time.sleep(max(0, began + number / RATE - time.monotonic()))
        while number % TOGETHER == 0 and (queued_at(rtp) or 0) > MOST_QUEUED:
            time.sleep(0.001)
        head = struct.pack(">BBHII", 0x80, 96, number % 65_536, timestamp(number), SSRC)
        out.sendto(head + PAYLOAD, (HOST, rtp))
        number += 1
        if number % RATE == 0:
            out.sendto(report(number), (HOST, rtcp))


if __name__ == "__main__":
    send(int(sys.argv[1]), int(sys.argv[2]))

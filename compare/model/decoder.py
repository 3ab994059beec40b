"""A plain decoder to compare `rtcp check` with, written from docs/PROTOCOL.md and docs/FORMATS.md alone."""


class Fault(Exception):
    pass


def block_text(octets):
    number = lambda start, size: int.from_bytes(octets[start:start + size], "big")
    lost = int.from_bytes(octets[5:8], "big", signed=True)
    return (f"{number(0, 4):08x}/{number(4, 1)}/{lost}/{number(8, 4)}/{number(12, 4)}"
            f"/{number(16, 4):08x}/{number(20, 4):08x}")


def blocks_text(octets, count):
    blocks = [block_text(octets[24 * i:24 * i + 24]) for i in range(count)]
    return f"[{';'.join(blocks)}],{len(octets) - 24 * count}"


def sender_report_text(body, count):
    if len(body) < 24 + 24 * count:
        raise Fault("F7 Body")
    sent = [int.from_bytes(body[at:at + 4], "big") for at in (16, 20)]
    return f"SR({body[:4].hex()},{body[4:12].hex()},{body[12:16].hex()},{sent[0]},{sent[1]},{blocks_text(body[24:], count)})"


def report_text(body, count):
    if len(body) < 4 + 24 * count:
        raise Fault("F7 Body")
    return f"RR({body[:4].hex()},{blocks_text(body[4:], count)})"


def goodbye_text(body, count):
    if len(body) < 4 * count:
        raise Fault("F7 Body")
    identifiers = ";".join(body[4 * i:4 * i + 4].hex() for i in range(count))
    part, reason = body[4 * count:], "-"
    if part:
        if 1 + part[0] > len(part) or len(part) - 1 - part[0] > 3:
            raise Fault("F9 Reason")
        reason = "=" + part[1:1 + part[0]].hex()
    return f"BYE([{identifiers}],{reason})"


def application_text(body, count):
    if len(body) < 8:
        raise Fault("F7 Body")
    return f"APP({count},{body[:4].hex()},{body[4:8].hex()},{len(body) - 8})"


def description_chunks(body, count):
    """Each chunk's identifier and items, an item as its type and text."""
    at, chunks = 0, []
    for _ in range(count):
        if len(body) - at < 4:
            raise Fault("F7 Body")
        identifier, at, items = body[at:at + 4], at + 4, []
        while True:
            if at >= len(body):
                raise Fault("F8 Item")
            if body[at] == 0:
                break
            if at + 1 >= len(body) or at + 2 + body[at + 1] > len(body):
                raise Fault("F8 Item")
            items.append((body[at], body[at + 2:at + 2 + body[at + 1]]))
            at += 2 + body[at + 1]
        at = (at + 4) // 4 * 4
        chunks.append((identifier, items))
    if at < len(body):
        raise Fault("F7 Body")
    return chunks


def description_text(body, count):
    chunks = []
    for identifier, items in description_chunks(body, count):
        texts = ",".join(f"{kind}={text.hex()}" for kind, text in items)
        chunks.append(f"{identifier.hex()}{{{texts}}}")
    return f"SDES([{';'.join(chunks)}])"


def packet_parts(octets, is_first):
    """Type, count, body and size of the first packet."""
    if len(octets) < 4:
        raise Fault("F1 Short")
    version, padded, count, kind = octets[0] >> 6, octets[0] & 0x20, octets[0] & 0x1f, octets[1]
    size = 4 * (int.from_bytes(octets[2:4], "big") + 1)
    if version != 2:
        raise Fault("F2 Version")
    if is_first and kind not in (200, 201):
        raise Fault("F3 FirstType")
    if is_first and padded:
        raise Fault("F4 FirstPadding")
    if size > len(octets):
        raise Fault("F5 Length")
    padding = octets[size - 1] if padded else 0
    if padded and (padding == 0 or padding % 4 or padding > size - 4):
        raise Fault("F6 Padding")
    return kind, count, octets[4:size - padding], size


def packet_text(octets, is_first):
    """The text of the first packet, and its size."""
    kind, count, body, size = packet_parts(octets, is_first)
    texts = {200: sender_report_text, 201: report_text, 202: description_text, 203: goodbye_text, 204: application_text}
    if kind in texts:
        return texts[kind](body, count), size
    return f"OTHER({kind},{count},{len(body)})", size


def answer(octets):
    """The line of text for a datagram, without its line feed."""
    if len(octets) > 65535:
        return "F10 TooLong at 0"
    place, texts = 0, []
    try:
        while place == 0 or place < len(octets):
            text, size = packet_text(octets[place:], place == 0)
            texts.append(text)
            place += size
    except Fault as fault:
        return f"{fault} at {place}"
    return " ".join(["ok", *texts])


def packet_facts(kind, count, body):
    """The facts of one packet: what is said, the SSRC, and the NTP and RTP timestamps that are told."""
    number = lambda start, size: int.from_bytes(body[start:start + size], "big")
    if kind == 200:
        return [("heard", number(0, 4), None), ("told", number(0, 4), (number(4, 8), number(12, 4)))]
    if kind in (201, 204):
        return [("heard", number(0, 4), None)]
    if kind == 203:
        return [("gone", number(4 * i, 4), None) for i in range(count)]
    facts = []
    for identifier, items in description_chunks(body, count) if kind == 202 else []:
        source = int.from_bytes(identifier, "big")
        facts.append(("heard", source, None))
        if any(item == 1 for item, _ in items):
            facts.append(("named", source, None))
    return facts


def packets(octets):
    """Type, count and body of each packet of a datagram that is accepted."""
    place = 0
    while place < len(octets):
        kind, count, body, size = packet_parts(octets[place:], place == 0)
        yield kind, count, body
        place += size


def facts(octets):
    """The facts of a datagram that is accepted, in order."""
    return [fact for packet in packets(octets) for fact in packet_facts(*packet)]


def goodbyes(octets):
    """How many BYE packets a datagram has that is accepted."""
    return sum(kind == 203 for kind, _, _ in packets(octets))

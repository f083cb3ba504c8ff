#!/usr/bin/env python3
"""corpus.py FOLDER: writes the fuzz target's seeds, made from the captures; each file's first byte chooses as wire.c says."""
import hashlib
import os
import sys

CAPTURES = os.path.join(os.path.dirname(os.path.abspath(__file__)), "..", "captures")
LAYOUT, MERGE, COMMIT = 0, 2, 4
BLOCK_1, BLOCK_4096, ROOM_N, ROOM_MORE = 0, 3 << 3, 1 << 6, 2 << 6
LAYOUTRETURN, GRACE, PROXIED, OPENED, TWO_MIRRORS, THREE_MIRRORS, FOUR_MIRRORS, OLD, ROOM_40 = 1, 2, 2 << 2, 3 << 2, 1 << 4, 2 << 4, 3 << 4, 1 << 6, 2 << 6
CHOICES = [
    LAYOUTRETURN | GRACE | OPENED | FOUR_MIRRORS,
    LAYOUTRETURN | GRACE | OPENED | TWO_MIRRORS | ROOM_40,
    LAYOUTRETURN | OPENED | FOUR_MIRRORS,
    LAYOUTRETURN | OPENED | FOUR_MIRRORS | OLD,
    LAYOUTRETURN | PROXIED | THREE_MIRRORS,
    LAYOUTRETURN | GRACE | OPENED | FOUR_MIRRORS | OLD,
    LAYOUTRETURN | GRACE | PROXIED | THREE_MIRRORS,
    LAYOUTRETURN | GRACE | PROXIED | FOUR_MIRRORS,
]


# A device that many captures name, and the one that wire.c has as the proxy.
SECOND, PROXY = b"\xb0" * 15 + b"\x02", b"\xe0" * 15 + b"\x05"


# A stateid with the latest seqid, for requests that have the all-zero one.
STATEID = bytes(4) + b"\x51" * 12


def chosen(request):
    """The request for each choice; where the file has a proxy, that is named in place of the second device; and out of grace with an ordinary stateid too."""
    for choice in CHOICES:
        proxied = choice & OPENED == PROXIED
        named = request.replace(SECOND, PROXY) if proxied else request
        yield bytes([choice]) + named
        if not choice & GRACE and len(request) > 48 and request[32:48] == bytes(16):
            yield bytes([choice]) + named[:32] + STATEID + named[48:]


def hex_words(name):
    """The first word of each line that is bytes in hex."""
    with open(os.path.join(CAPTURES, name)) as capture:
        for line in capture:
            word = line.split(" ")[0].strip()
            if word and not line.startswith(("#", "=")):
                yield b"" if word == "-" else bytes.fromhex(word)


def padded(request):
    """The request with a body of one to three bytes less, and padding in their place: zeros, or zeros and a last byte that is not."""
    for less in (1, 2, 3):
        length = int.from_bytes(request[48:52], "big") - less
        if length >= 0:
            kept = request[:48] + length.to_bytes(4, "big") + request[52:-less]
            yield kept + bytes(less)
            yield kept + bytes(less - 1) + b"\x01"


def number(body, at):
    """The 4-byte number at a place."""
    return int.from_bytes(body[at : at + 4], "big")


def split(body):
    """A well-formed body as its error records with their count, and a list of its statistics records."""
    at = 4
    for _ in range(number(body, 0)):
        at += 36 + 24 * number(body, at + 32)
    errors, records, at = body[:at], [], at + 4
    while at < len(body):
        end = at + 80
        for _ in range(3):
            end += 4 + (number(body, end) + 3) // 4 * 4
        end += 144
        records.append(body[at:end])
        at = end
    return errors, records


def at_the_edge(request):
    """The request with two of each of its statistics records, whose bytes come to 2^64 - 1 and to one more."""
    errors, records = split(request[52:])
    for first in (2**63 - 1, 2**63):
        body = errors + (2 * len(records)).to_bytes(4, "big")
        for record in records:
            for count in (first, 2**63):
                word = count.to_bytes(8, "big")
                body += record[:40] + word + record[48:56] + word + record[64:]
        if records and len(body) <= 4096:
            yield request[:48] + len(body).to_bytes(4, "big") + body


def touching():
    """Extents in a row, of one state or read beside invalid, the last of which joins the first, or is kept from it by its device, storage or offset."""
    def extent(state, offset, storage, device=7):
        return bytes([device] * 16) + b"".join(number.to_bytes(8, "big") for number in (offset, 4, storage)) + state.to_bytes(4, "big")

    for state in range(4):
        for last in (extent(state, 8, 108), extent(state, 8, 108, 8), extent(state, 8, 109), extent(state, 9, 109)):
            yield extent(state, 0, 100) + extent(state, 4, 104) + last
    yield extent(1, 0, 100) + extent(2, 0, 500) + extent(1, 4, 104) + extent(2, 4, 504)
    yield b"".join(extent(0, 5 * i, 5 * i) for i in range(1025))


def commits():
    """The captured LAYOUTCOMMITs, each also with a range more that the list does not bear: behind all, of no length, over the last one, and off the blocks."""
    with open(os.path.join(CAPTURES, "linux-layoutcommit.txt")) as capture:
        lines = [line.split() for line in capture if not line.startswith("#")]
    layouts, lists = ([bytes.fromhex(word) for key, word in lines if key == kind] for kind in ("layout", "commit"))
    for layout, ranges in zip(layouts, lists):
        extents = layout[2:]
        offset, length = (int.from_bytes(ranges[at : at + 8], "big") for at in (-16, -8))
        yield extents + ranges
        yield extents + bytes(4)
        for more in ((offset + length, 2**63), (offset + length, 0), (offset, length), (offset + length + 1, 4096), (offset + length, 4096)):
            count = (number(ranges, 0) + 1).to_bytes(4, "big")
            yield extents + count + ranges[4:] + b"".join(word.to_bytes(8, "big") for word in more)


def seeds():
    for commit in commits():
        for choice in (BLOCK_4096, BLOCK_1 | ROOM_N, BLOCK_4096 | ROOM_MORE):
            yield bytes([COMMIT | choice]) + commit
    for body in hex_words("layout-bodies.txt"):
        yield bytes([LAYOUT]) + body
        yield bytes([MERGE]) + body[4:]
    for extents in touching():
        yield bytes([MERGE]) + extents
    for name in ("layoutreturn-damaged.txt", "linux-layoutreturn.txt"):
        for request in hex_words(name):
            yield from chosen(request)
    for request in list(hex_words("linux-layoutreturn.txt"))[:12]:
        for other in padded(request):
            yield from chosen(other)
    for request in list(hex_words("linux-layoutreturn.txt"))[:17]:
        for other in at_the_edge(request):
            yield from chosen(other)


def main():
    folder = sys.argv[1]
    os.makedirs(folder, exist_ok=True)
    for seed in seeds():
        with open(os.path.join(folder, hashlib.sha1(seed).hexdigest()), "wb") as file:
            file.write(seed)


if __name__ == "__main__":
    main()

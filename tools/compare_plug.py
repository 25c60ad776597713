#!/usr/bin/env python3
"""Compares `plug` with a second model of the listing, written from docs/PROTOCOL.md alone.

    tools/compare_plug.py crates/plug/out/plug [INPUTS]

Each input is random traffic: frames of both framings, damaged ones, noise, and often a cut end. It is outside the
gate: the listing's text is proved there, and this shows that the definitions mean what the page says.
"""
import random
import subprocess
import sys

DLE, STX, ETX, COLON, LF = 0x10, 0x02, 0x03, 0x3A, 0x0A


def attempt_binary(window):
    """What an attempt at 10 02 comes to in its window: ('end', n), ('inner', n), 'wrong' or 'open'."""
    n = 2
    while n < len(window):
        if window[n] != DLE:
            n += 1
        elif n + 1 == len(window):
            return "open"
        elif window[n + 1] == ETX:
            return ("end", n + 2)
        elif window[n + 1] == STX:
            return ("inner", n)
        elif window[n + 1] == DLE:
            n += 2
        else:
            return "wrong"
    return "open"


def find(received):
    """The outcome ('frame', 'more' or 'none'), the place and the frame."""
    place, end = 0, len(received)
    while place < end:
        first = received[place]
        if first == COLON:
            k = received[place : place + 135].find(LF)
            if k >= 0:
                return "frame", place, received[place : place + k + 1]
            if end - place < 135:
                return "more", place, b""
        elif first == DLE and place + 1 == end:
            return "more", place, b""
        elif first == DLE and received[place + 1] == STX:
            comes = attempt_binary(received[place : place + 138])
            if comes == "open" and end - place < 138:
                return "more", place, b""
            if comes[0] == "end":
                return "frame", place, received[place : place + comes[1]]
            if comes[0] == "inner":
                place += comes[1]
                continue
        place += 1
    return "none", end, b""


def read_ascii(frame):
    if len(frame) < 3 or frame[0] != COLON or frame[-2:] != b"\r\n":
        return None
    digits = frame[1:-2]
    if len(digits) % 2 or any(c not in b"0123456789ABCDEF" for c in digits):
        return None
    held = bytes.fromhex(digits.decode())
    if not 2 <= len(held) <= 66 or held[0] != len(held) - 1:
        return None
    return ("error", held[1]) if len(held) == 2 else ("data", held[1], held[2:])


def read_binary(frame):
    if len(frame) < 4 or frame[:2] != bytes([DLE, STX]) or frame[-2:] != bytes([DLE, ETX]):
        return None
    held, rest = bytearray(), frame[2:-2]
    while rest:
        if rest[0] == DLE and rest[1:2] != bytes([DLE]):
            return None
        held.append(rest[0])
        rest = rest[2:] if rest[0] == DLE else rest[1:]
    if len(held) < 3:
        return None
    length, data = held[2], bytes(held[3:])
    if length == 0:
        return ("error", data[0]) if len(data) == 1 else None
    return ("data", held[1], data) if length == len(data) <= 64 else None


def listing(received):
    lines, counts, at = [], {"data": 0, "error": 0, None: 0}, 0
    while True:
        outcome, offset, frame = find(received[at:])
        if outcome != "frame":
            break
        message = read_ascii(frame) if frame[0] == COLON else read_binary(frame)
        counts[message and message[0]] += 1
        if message is None:
            says = "no frame"
        elif message[0] == "error":
            says = "error %02X" % message[1]
        else:
            says = "data, node %02X, command %02X, data %s" % (message[1], message[2][0], message[2].hex().upper())
        lines.append("%d at %d: %s" % (len(lines) + 1, at + offset, says))
        at += offset + len(frame)
    lines.append("%d data, %d error, %d unreadable" % (counts["data"], counts["error"], counts[None]))
    lines.append("more at %d" % (at + offset) if outcome == "more" else "none left")
    return "\n".join(lines) + "\n"


def random_bytes(r, n, likely):
    return bytes(r.choice(likely + [r.randrange(256)]) for _ in range(n))


def random_frame(r):
    node = r.choice([0x80, 3, DLE, r.randrange(256)])
    data = random_bytes(r, r.choice([1, 2, 5, 16, 63, 64, r.randrange(1, 65)]), [DLE, ETX, STX, COLON, LF])
    sequence = r.choice([DLE, r.randrange(256)])

    def binary(held):
        return bytes([DLE, STX]) + bytes(held).replace(bytes([DLE]), bytes([DLE, DLE])) + bytes([DLE, ETX])

    kind = r.random()
    if kind < 0.35:
        frame = b":%02X%02X" % (len(data) + 1, node) + data.hex().upper().encode() + b"\r\n"
    elif kind < 0.45:
        frame = b":01%02X\r\n" % node
    elif kind < 0.8:
        frame = binary([sequence, node, len(data), *data])
    elif kind < 0.9:
        frame = binary([sequence, node, 0, r.randrange(256)])
    else:
        frame = bytes(r.choice([DLE, STX, ETX, COLON, LF, 0x0D, 0x41]) for _ in range(r.randrange(1, 300)))
    frame = bytearray(frame)
    for _ in range(r.choice([0, 0, 0, 1, 2, 3])):
        at = r.randrange(len(frame) + 1)
        frame[at : at + r.randrange(2)] = random_bytes(r, r.randrange(2), [DLE, STX, ETX, COLON, LF])
    return bytes(frame)


def random_traffic(r):
    parts = []
    for _ in range(r.randrange(25)):
        parts += [random_bytes(r, r.choice([0, 0, 0, 1, 7, 150]), []), random_frame(r)]
    received = b"".join(parts)
    return received[: r.randrange(len(received) + 1)] if r.random() < 0.3 else received


def main():
    plug, inputs = sys.argv[1], int(sys.argv[2]) if len(sys.argv) > 2 else 1000
    frames = 0
    for seed in range(inputs):
        received = random_traffic(random.Random(seed))
        expected = listing(received)
        frames += expected.count("\n") - 2
        printed = subprocess.run([plug], input=received, capture_output=True, check=True).stdout.decode()
        if printed != expected:
            sys.exit("input %d differs:\n%s\nplug printed:\n%s\nexpected:\n%s" % (seed, received.hex(), printed, expected))
    print("%d inputs, %d frames: no difference" % (inputs, frames))


main()

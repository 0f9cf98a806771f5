#!/usr/bin/env python3
"""What the program `updates` has to print for an input, worked out from the rules in docs/ and not from its code.

    tools/updates_model.py < crates/updates/stdin > crates/updates/stdout
"""
import re
import sys

MASK = (1 << 64) - 1
KEYS = ["place", "number"] + ["a%d" % i for i in range(8)] + ["seal"]
NAMES = {1: "no such place", 2: "bad number", 3: "over the limit", 17: "no seals left", 18: "bad line"}


def siphash24(k0, k1, message):
    v = [k0 ^ 0x736F6D6570736575, k1 ^ 0x646F72616E646F6D, k0 ^ 0x6C7967656E657261, k1 ^ 0x7465646279746573]

    def rotl(x, k):
        return ((x << k) | (x >> (64 - k))) & MASK

    def sip_round():
        v[0] = (v[0] + v[1]) & MASK
        v[1] = rotl(v[1], 13) ^ v[0]
        v[0] = rotl(v[0], 32)
        v[2] = (v[2] + v[3]) & MASK
        v[3] = rotl(v[3], 16) ^ v[2]
        v[0] = (v[0] + v[3]) & MASK
        v[3] = rotl(v[3], 21) ^ v[0]
        v[2] = (v[2] + v[1]) & MASK
        v[1] = rotl(v[1], 17) ^ v[2]
        v[2] = rotl(v[2], 32)

    whole = len(message) // 8 * 8
    blocks = [message[i : i + 8] for i in range(0, whole, 8)]
    blocks.append(message[whole:].ljust(7, b"\0") + bytes([len(message) % 256]))
    for block in blocks:
        m = int.from_bytes(block, "little")
        v[3] ^= m
        sip_round()
        sip_round()
        v[0] ^= m
    v[2] ^= 0xFF
    for _ in range(4):
        sip_round()
    return v[0] ^ v[1] ^ v[2] ^ v[3]


def read(text):
    """The values of a text and None, or None and the refusal as it is printed."""
    values = []
    for n, key in enumerate(KEYS, 1):
        m = re.match(key.encode() + rb"=(0|[1-9][0-9]*)\n", text)
        if not m or int(m.group(1)) > MASK:
            return None, "no 18 bad line, line %d" % n
        values.append(int(m.group(1)))
        text = text[m.end() :]
    if text:
        return None, "no 18 bad line, line %d" % (len(KEYS) + 1)
    if values[0] > 63:
        return None, "no 1 no such place"
    if not 1 <= values[1] <= 1000000000:
        return None, "no 2 bad number"
    if sum(values[2:10]) > 2100000000000000:
        return None, "no 3 over the limit"
    return values, None


def split(data):
    """The texts of a batch: each ends at its first empty line, or at the end of the input."""
    while data:
        end = 0 if data.startswith(b"\n") else data.find(b"\n\n") + 1
        if end == 0 and not data.startswith(b"\n"):
            end = len(data)
        yield data[:end]
        data = data[end + 1 :]


def main():
    key, _, rest = sys.stdin.buffer.read().partition(b"\n")
    k0, k1 = (int(w) for w in key.split(b" "))
    count = accepted = 0
    for text in split(rest):
        count += 1
        values, refusal = read(text)
        if refusal:
            print("text %d: %s" % (count, refusal))
            continue
        accepted += 1
        words = values[:10]
        tag = siphash24(k0, k1, b"".join(w.to_bytes(8, "little") for w in words))
        amounts = " ".join(str(a) for a in words[2:])
        print("text %d: place %d number %d amounts %s total %d" % (count, words[0], words[1], amounts, sum(words[2:])))
        print("  tag %d, seal %d %s" % (tag, values[10], "good" if values[10] == tag else "not good"))
        print("  written again: %d bytes, the same bytes" % len(text))
    print("%d texts: %d accepted, %d refused" % (count, accepted, count - accepted))


main()

#!/usr/bin/env python3
"""What the program line_examples prints, by a regular expression for document 01's section "Message lines".

usage: line_examples.py < crates/line_examples/stdin > crates/line_examples/stdout
"""
import re
import sys

MESSAGE = re.compile(
    rb"([?!#][A-Za-z][A-Za-z0-9-]{0,63})(?:\[([1-9][0-9]*)\])?"
    rb"((?:[ \t]+(?:[^\\ \x00\n\r\x1b\t]|\\[\\_0nret@])+)*)[ \t]*",
    re.DOTALL,
)
ESCAPES = {b"\\": b"\\", b"_": b" ", b"0": b"\0", b"n": b"\n", b"r": b"\r", b"e": b"\x1b", b"t": b"\t", b"@": b""}


def unescaped(word):
    return re.sub(rb"\\(.)", lambda m: ESCAPES[m.group(1)], word, flags=re.DOTALL)


def shown(line):
    if len(line) > 2048:
        return b"12"
    if not line.strip(b" \t"):
        return b"blank"
    m = MESSAGE.fullmatch(line)
    if not m or int(m.group(2) or 0) > 2**31 - 1:
        return b"12"
    words = [unescaped(w) for w in re.split(rb"[ \t]+", m.group(3)) if w]
    texts = [w.hex().encode() or b"-" for w in words]
    return b" ".join([m.group(1), m.group(2) or b"0", b"%d" % len(words)] + texts)


def main():
    out = [b"%d: " % b + shown(b"?a \\" + bytes([b])) for b in range(256)]
    lines = sys.stdin.buffer.read().split(b"\n")[:-1]
    out += [shown(l) for l in lines]
    sys.stdout.buffer.write(b"\n".join(out) + b"\n")


main()

#!/usr/bin/env python3
"""Writes crates/commands/stdin and crates/commands/stdout.

The answers are worked out here from document 01, "Commands (desk)", by other means than the library's, so that
the stored output is a second opinion and no copy of what the program wrote. Run it at the repository's top."""
import os
import re

RANGES = [b"01%02X" % (32 * k) for k in range(8)]


def answer(line):
    command = line[: len(line) // 2 * 2]
    if command.upper() in RANGES:
        return b"range", b"%d" % RANGES.index(command.upper())
    if re.match(rb"01[0-9A-Fa-f]{2}", command, re.S):
        return b"pid", command[2:4].upper()
    return b"?", b"-"


def cases():
    # document 01's examples
    yield from [b"010C", b"01001", b"+10C", b"ATZ", b"010c0D", b"010"]
    # every range command, in either case, with a response count, with a digit pair behind it
    for text in RANGES:
        yield from [text, text.lower(), text + b"1", text.lower() + b"F", text + b"0C", text + b"0C1"]
    # lengths 0 to 8 of one command
    for n in range(9):
        yield b"010C0D05"[:n]
    # neighbours of the digits and letters, in both places of the PID
    for c in b"/0129:;@AFGZ[`afgz{":
        yield from [b"01%c0" % c, b"010%c" % c]
    # other modes, AT commands, signs, spaces
    yield from [b"0001", b"020C", b"1101", b"0201", b"atz", b"ATI", b"+1+C", b"01+C", b"01-1", b"01 0C", b" 010C", b"010C ", b"0 1 0 C"]
    # a carriage return, a tab and other bytes are bytes like any other
    yield from [b"010C\r", b"0100\r", b"010\r", b"\r", b"\t", b"010C\t", b"010C\t1", b"\x00", b"010\x00", b"01\x000", b"010C\x00", b"\x0001"]
    yield from ["01é".encode(), "0é0C".encode(), "01é0".encode(), b"\xff\xfe\xfd\xfc", b"\x80" * 5]
    # every single byte that is no line feed
    for b in range(256):
        if b != 10:
            yield bytes([b])
    # lines longer than any buffer, and ends of lines around a buffer's end
    yield b"010D" + b"x" * 70000
    yield b"0100" + b"0" * 5000
    yield b"?" * 4095
    yield b"010F" + b"\x00" * 4091
    yield b"0111" + b"\xff" * 4093
    # empty lines
    yield from [b"", b"", b"0C"]


lines = list(cases())
top = os.path.join(os.path.dirname(os.path.abspath(__file__)), "..", "crates", "commands")
# the last line has no line feed
text = b"\n".join(lines) + b"\n010b1"
lines.append(b"010b1")
with open(os.path.join(top, "stdin"), "wb") as f:
    f.write(text)
with open(os.path.join(top, "stdout"), "wb") as f:
    for line in lines:
        f.write(b"\t".join((line,) + answer(line)) + b"\n")

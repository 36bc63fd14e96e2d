#!/usr/bin/env python3
"""Writes crates/replay/stdin and crates/replay/stdout.

No answer here is the program's own. They come from three places:
- oracle/examples: worked out by hand from documents 01 and 02, and given by the Rust too (amended-*: by the amended one);
- oracle/sample: the Rust's answers to generated histories (`oracle/compare --sample 41 900 oracle/sample/calls.txt
  oracle/sample/answers.txt` wrote them);
- the cases below, worked out by hand: what the Rust has no answer for (refusals, filler bytes behind a value, lines that
  don't follow history-format.md), the answer of each line behind its arrow.
Run it at the repository's top."""
import pathlib

DEFAULTS = "1,450,6,40,2000,4000,0,6"
ABSENT = " ".join(["-"] * 8)

# Document 01's table, number by number: each refusal, its boundary, and that nothing changed.
REFUSALS = f"""
# before the first start: the box that a refused start gives
show → show 0 0 - 0 - - - -
tick 5 → ok
# 1: below the last accepted time, above the last that is taken; the lowest number is given
start 16777216000 2,450,6,40,2000,4000,0,6 → refused 1
show → show 0 0 - 0 - - - -
start 16777215999 {DEFAULTS} → started
tick 16777215999 → ok
tick 16777216000 → refused 1
tick 16777215998 → refused 1
start 100 {DEFAULTS} 0,0C,0,-,1 → started
tick 99 → refused 1
register 99 → refused 1
leave 99 1 → refused 1
ask 99 1 '010C 64 → refused 1
collect 99 1 64 → refused 1
giveup 99 1 → refused 1
response 99 0D 0C → refused 1
profiles 99 3,0C,0,-,1 → refused 1
waiting 99 0C → refused 1
consumed 99 0C 60001 → refused 1
settings 99 2,450,6,40,2000,4000,0,6 → refused 1
take 99 → refused 1
connect 99 0 → refused 1
connect 99 1 * 0 {ABSENT} → refused 1
reconnect 99 → refused 1
begin 99 → refused 1
next 99 → refused 1
result 99 0 0 → refused 1
show → show 100 0 - 0 - 0Cf+ 0Cf -
tick 100 → ok
tick 18446744073709551615 → refused 1
# 2: profiles and settings
start 7 2,450,6,40,2000,4000,0,6 → refused 2
show → show 0 0 - 0 - - - -
start 7 {DEFAULTS} 0,0C,0,-,1 0,0D,0,-,1 → refused 2
start 7 {DEFAULTS} 0,0C,0,-,0 0,0D,0,-,0 → refused 2
start 7 {DEFAULTS} 3,0C,0,-,1 → refused 2
start 7 {DEFAULTS} 1,0C,2,-,1 → refused 2
start 7 {DEFAULTS} {' '.join(['1,0C,1,-,1'] * 17)} → refused 2
start 7 {DEFAULTS} {' '.join(['1,0C,1,-,1'] * 272)} → refused 2
show → show 0 0 - 0 - - - -
start 7 {DEFAULTS} {' '.join(['1,0C,1,-,1'] * 16)} → started
profiles 7 {' '.join(['1,0C,1,-,1'] * 17)} → refused 2
profiles 7 255,0C,0,-,1 → refused 2
settings 7 255,450,6,40,2000,4000,0,6 → refused 2
show → show 7 0 - 0 - 0Cs+ 0Cs -
settings 8 0,18446744073709551615,4294967295,0,0,0,1,255 → ok
# 3: a response's PIDs and a reply's size; a range reply's, before 12
start 0 {DEFAULTS} → started
response 1 01 02 03 04 05 06 07 → refused 3
response 1 {' '.join(f'{p:02X}' for p in range(256))} → refused 3
response 1 0D 0C → refused 3
response 1 0C 0C → refused 3
response 1 0C:{','.join(['41'] * 9)} → refused 3
response 1 0C:{',' * 255} → refused 3
response 1 0C:{'41' * 65} → refused 3
response 1 0C:{'41' * 256} → refused 3
response 1 0C:{'41' * 33},{'41' * 32} → refused 3
response 1 0B 0C:{',' * 8} → refused 3
show → show 0 0 - 0 - - - -
response 1 0C:{','.join(['410C0102'] * 8)} → ok 0C=258
response 1 0D:{'41' * 64} 0E → ok 0D=65 0E=0
connect 1 1 * 0 - - - - - - - :{'41' * 65} → refused 3
connect 1 1 * 0 :{',' * 8} - - - - - - - → refused 3
begin 1 → ok
connect 1 1 * 0 :{'41' * 65} - - - - - - - → refused 3
connect 1 1 * 0 {ABSENT} → refused 12
next 1 → end 0
show → show 1 0 - 0 - - - 64
# 4: a wait, in a call that is not tracked too
consumed 2 0C 60001 → refused 4
consumed 2 0C 18446744073709551615 → refused 4
consumed 2 0C 60000 → ok
consumed 2 0C - → ok
tick 2000 → ok report 1 1 60000 42480000
# 7 and 8: eight places; numbers are never given again
register 2001 → client 1
register 2001 → client 2
register 2001 → client 3
register 2001 → client 4
register 2001 → client 5
register 2001 → client 6
register 2001 → client 7
register 2001 → client 8
register 2001 → refused 7
leave 2001 9 → ok
register 2001 → refused 7
leave 2001 3 → ok
ask 2001 3 '010C 64 → refused 8
collect 2001 3 0 → refused 8
giveup 2001 3 → refused 8
ask 2001 0 '010C 64 → refused 8
ask 2001 4294967295 'ATZ 0 → refused 8
register 2001 → client 9
register 2001 → refused 7
# 9, 10, 11 and 14, with a connection
connect 2002 1 * 0 :4100BE1FA813 . - - - - - - → connected
giveup 2002 1 → refused 10
collect 2002 1 64 → refused 10
ask 2002 1 '010C 0 → waiting 0C
ask 2003 1 '010C 64 → refused 9
ask 2003 1 '010D 64 → refused 9
ask 2003 1 '0100 5 → refused 14
ask 2003 1 '0100 6 → range 6 4100BE1FA813
ask 2003 1 '0120 0 → nodata
ask 2003 1 '0140 0 → unable
ask 2003 1 'ATZ 0 → unknown
collect 2004 1 0 → refused 11
response 2005 0C:410C1AF8,410C0000 → ok 0C=6904
collect 2005 1 7 → refused 14
collect 2005 1 8 → reading 0C 4,4 410C1AF8410C0000 3
collect 2005 1 8 → refused 10
ask 2005 2 '010C 7 → refused 14
ask 2005 2 '010C 8 → reading 0C 4,4 410C1AF8410C0000
ask 2005 2 '010C 8 → waiting 0C
response 2006 0C → ok 0C=0
giveup 2006 2 → nodata
giveup 2006 2 → refused 10
ask 2006 2 '010C 0 → reading 0C - -
# 12 and 13: a round's order
next 2007 → refused 13
result 2007 0 0 → refused 13
result 2007 2 2 1,1 -,0 255,1 → refused 13
begin 2007 → ok
begin 2007 → refused 12
take 2007 → refused 12
connect 2007 0 → refused 12
connect 2007 1 * 0 {ABSENT} → refused 12
reconnect 2007 → refused 12
result 2007 0 0 → refused 13
next 2007 → end 0
next 2007 → refused 13
take 2007 → none
connect 2007 0 → already
connect 2007 1 * 0 {ABSENT} → already
reconnect 2007 → no
waiting 2008 0C → ok
take 2008 → set 0C 0
begin 2008 → ok
next 2008 → query 0C -
next 2008 → refused 13
result 2008 0 0 3,1 → ok
result 2008 0 0 3,1 → refused 13
next 2008 → end 1
begin 2008 → ok
next 2008 → query 0C 3
result 2009 2 0 -,0 → ok
next 2009 → end 1
ask 2009 1 '0100 64 → unable
connect 2009 0 → failed
reconnect 2009 → yes
reconnect 3008 → no
reconnect 3009 → yes
# 12 and 13 in a round with slow PIDs alone (document 02, A2): index and due query stay, and the slow clock, 300
start 0 {DEFAULTS} 1,05,1,-,1 1,0F,1,-,1 1,2F,0,-,1 → started
take 0 → set 05 1
take 0 → set 0F 1
connect 0 1 * 0 {ABSENT} → connected
begin 100 → ok
take 110 → refused 12
begin 110 → refused 12
connect 110 0 → refused 12
connect 110 1 * 0 {ABSENT} → refused 12
reconnect 110 → refused 12
result 110 0 0 → refused 13
show → show 100 0 - 0 05,0F 05s+,0Fs+,2Ff+ 2Ff -
next 200 → query 05 -
next 210 → refused 13
take 210 → refused 12
show → show 200 0 - 1 05,0F 05s+,0Fs+,2Ff+ 2Ff -
result 300 0 0 1,1 → ok
result 310 0 0 → refused 13
next 400 → end 1
next 410 → refused 13
result 410 0 0 → refused 13
take 410 → set 2F 0
settings 410 0,450,6,40,2000,4000,0,6 → ok
begin 749 → ok
next 749 → query 2F -
result 749 0 0 1,1 → ok
next 749 → end 1
begin 749 → ok
next 749 → query 2F 1
result 749 0 0 1,1 → ok
next 750 → query 0F -
result 750 0 0 1,1 → ok
next 750 → end 2
"""

# Document 02, A1. J1979's data lengths: 0D has one byte, 0C two, 24 four, 64 five, 66 none. No PID has three, or more
# than five: crates/marked_rows computes those.
VALUES = f"""
start 0 {DEFAULTS} → started
# no line, and lines of no byte, one and two: nothing behind the two bytes that are skipped
response 1 0C 0D 24 64 66 → ok 0C=0 0D=0 24=0 64=0 66=0
response 1 0C: 0D: 24: 64: 66: → ok 0C=0 0D=0 24=0 64=0 66=0
response 1 0C:41 0D:41 24:41 64:41 66:41 → ok 0C=0 0D=0 24=0 64=0 66=0
response 1 0C:410C 0D:410D 24:4124 64:4164 66:4166 → ok 0C=0 0D=0 24=0 64=0 66=0
show → show 1 0 - 0 - - - 0
# one byte behind them, then two, to seven: the length is passed by 0D at two, 0C at three, 24 at five, 64 at six
response 2 0C:410C01 0D:410D01 24:412401 64:416401 66:416601 → ok 0C=1 0D=1 24=1 64=1 66=1
show → show 2 0 - 0 - - - 0
response 2 0C:410C0102 0D:410D0102 24:41240102 64:41640102 66:41660102 → ok 0C=258 0D=1 24=258 64=258 66=258
show → show 2 0 - 0 - - - 64
response 2 0C:410C010203 0D:410D010203 24:4124010203 64:4164010203 66:4166010203 → ok 0C=258 0D=1 24=66051 64=66051 66=66051
response 2 0C:410C01020304 0D:410D01020304 24:412401020304 → ok 0C=258 0D=1 24=16909060
response 2 64:416401020304 66:416601020304 → ok 64=16909060 66=16909060
response 2 0D:410D0102030405 24:41240102030405 64:41640102030405 66:41660102030405 → ok 0D=1 24=16909060 64=16909060 66=16909060
response 2 24:4124010203040506 64:4164010203040506 66:4166010203040506 → ok 24=16909060 64=16909060 66=16909060
response 2 64:416401020304050607 → ok 64=16909060
show → show 2 0 - 0 - - - 64
# document 02's row: 41 0C 01 02 03 04 05 is 258, revs 64
response 3 0C:410C1AF8 → ok 0C=6904
show → show 3 0 - 0 - - - 1726
response 3 0C:410C0102030405 → ok 0C=258
show → show 3 0 - 0 - - - 64
# the most that each holds, the line filled up to 64 bytes
response 4 0C:410C{'FF' * 62} → ok 0C=65535
response 4 0D:410D{'FF' * 62} → ok 0D=255
response 4 24:4124{'FF' * 62} → ok 24=4294967295
response 4 64:4164{'FF' * 62} → ok 64=4294967295
response 4 66:4166{'FF' * 62} → ok 66=4294967295
show → show 4 0 - 0 - - - 16383
# the first line alone, also where it is short and the next is not
response 5 0C:410C07,410C1AF8 0D:410D,410D7F 24:412401,412401020304 → ok 0C=7 0D=0 24=1
response 5 0C:,410C1AF8 → ok 0C=0
# the ends of the table and its gaps: 00, 80, A0 and C0 have four bytes, 63 and 65 two; 7F, 81, E0 and FF none
response 6 00:41000102030405 63:4163010203 64:41640102030405 65:4165010203 66:416601020304 7F:417F01020304 → ok 00=16909060 63=258 64=16909060 65=258 66=16909060 7F=16909060
response 6 80:41800102030405 81:418101020304 A0:41A00102030405 C0:41C00102030405 E0:41E001020304 FF:41FF01020304 → ok 80=16909060 81=16909060 A0=16909060 C0=16909060 E0=16909060 FF=16909060
# data of zeros before the filler bytes
response 6 0C:410C0000FFFF 0D:410D00FF → ok 0C=0 0D=0
show → show 6 0 - 0 - - - 0
# what the two skipped bytes are does not matter: the length goes by the PID that the reply was brought for
response 6 0C:000D010203 0D:000C010203 → ok 0C=258 0D=1
# neither does what a session says is known: no PID's length, then every one's; and a length unlearnt by a result
connect 7 1 {'0' * 64} 0 {ABSENT} → connected
response 7 0C:410C0102030405 0D:410D0102 66:41660102030405 → ok 0C=258 0D=1 66=16909060
start 7 {DEFAULTS} 0,0C,0,-,1 → started
connect 7 1 {'F' * 64} 0 {ABSENT} → connected
response 7 0C:410C0102030405 0D:410D0102 66:41660102030405 → ok 0C=258 0D=1 66=16909060
take 7 → set 0C 0
begin 7 → ok
next 7 → query 0C -
result 7 0 0 1,0 → ok
response 7 0C:410C0102030405 → ok 0C=258
next 7 → end 1
# thresholds, strictly below the value: the filler bytes of 0C and 0D would have passed them
start 0 {DEFAULTS} 2,0C,0,257,1 2,0D,1,1,1 2,64,1,16909059,1 2,66,1,16909059,1 → started
response 1 0C:410C0101FFFF 0D:410D01FF 64:416401020303FFFF 66:416601020303FF → ok 0C=257 0D=1 64=16909059 66=16909059
response 2 0C:410C0102FFFF 0D:410D02FF 64:416401020304FFFF 66:416601020304FF → ok 0C=258! 0D=2! 64=16909060! 66=16909060!
response 3 0C:410C0102FFFF 0D:410D02FF 64:416401020304FFFF 66:416601020304FF → ok 0C=258 0D=2 64=16909060 66=16909060
# at the most that a length holds no value is above the threshold; nor is 0 above 0
start 0 {DEFAULTS} 2,0C,0,65535,1 2,0D,1,255,1 2,05,1,0,1 → started
response 1 05:410500FF 0C:410CFFFFFFFF 0D:410DFFFF → ok 05=0 0C=65535 0D=255
response 2 05:410501 → ok 05=1!
# the maintenance of the same call: the pin stays at the threshold, and goes above it
start 0 {DEFAULTS} 2,05,1,100,1 → started
response 2000 05:4105640000 → ok 05=100 report 0 0 0 00000000
show → show 2000 0 - 0 - 05s+ 05s -
start 0 {DEFAULTS} 2,05,1,100,1 → started
response 2000 05:4105650000 → ok 05=101! report 0 0 0 00000000
show → show 2000 0 - 0 - 05s 05s -
# a Fast one: pinned it stays as it is; unpinned it is demoted, since nobody waited for it, and removed past 4,000
start 0 {DEFAULTS} 2,0C,0,257,1 → started
response 2000 0C:410C0101FFFF → ok 0C=257 report 0 0 0 00000000
show → show 2000 0 - 0 - 0Cf+ 0Cf 64
start 0 {DEFAULTS} 2,0C,0,257,1 → started
response 2000 0C:410C0102FFFF → ok 0C=258! report 0 0 0 00000000
show → show 2000 0 - 0 - 0Cs 0Cf,0Cs 64
start 0 {DEFAULTS} 2,0C,0,257,1 → started
response 4001 0C:410C0102FFFF → ok 0C=258! report 0 0 0 00000000
show → show 4001 0 - 0 - - 0Cf,0Cx 64
# what is stored and handed out keeps every byte
start 0 {DEFAULTS} → started
register 0 → client 1
register 0 → client 2
connect 10 1 * 0 {ABSENT} → connected
ask 10 1 '010C 0 → waiting 0C
response 11 0C:410C0102030405,410C → ok 0C=258
collect 12 1 8 → refused 14
collect 12 1 9 → reading 0C 7,2 410C0102030405410C 2
ask 12 2 '010C 64 → reading 0C 7,2 410C0102030405410C
# and equal values are two deliveries
response 13 0C:410C0102FF → ok 0C=258
response 14 0C:410C0102EE → ok 0C=258
ask 14 1 '010C 64 → reading 0C 5 410C0102EE
ask 14 1 '010C 64 → waiting 0C
"""

# Lines that don't follow the page give `bad line`, and nothing changes.
BAD = [
    "Start 0",
    "start",
    "start 0",
    "start 0 1,450,6,40,2000,4000,0",
    "start 0 1,450,6,40,2000,4000,0,6,7",
    "start 0 1,450,6,40,2000,4000,2,6",
    "start 0 256,450,6,40,2000,4000,0,6",
    "start 0 1,450,4294967296,40,2000,4000,0,6",
    "start 0 1,450,6,40,2000,4000,0,256",
    "start 0 1,18446744073709551616,6,40,2000,4000,0,6",
    f"start 0 {DEFAULTS} 0,0C,0,-",
    f"start 0 {DEFAULTS} 0,C,0,-,1",
    f"start 0 {DEFAULTS} 0,0C,0,4294967296,1",
    f"start 0 {DEFAULTS} 0,0C,0,-,2",
    f"start 0 {DEFAULTS} ",
    f"start  0 {DEFAULTS}",
    "register",
    "register -1",
    "register +1",
    "register 0x1",
    "register 18446744073709551616",
    "register 1 2",
    " register 1",
    "register 1 ",
    "register\t1",
    "leave 1",
    "leave 1 4294967296",
    "ask 1 1 010C 64",
    "ask 1 1 '010C 4097",
    "ask 1 1 x3 64",
    "ask 1 1 xZZ 64",
    "ask 1 1 '01 0C 64",
    "ask 1 1 '010C",
    "collect 1 1",
    "giveup 1",
    "response 1 C",
    "response 1 0C:4",
    "response 1 0C:41,4",
    "response 1 0C: ",
    "waiting 1 C",
    "waiting 1 0CC",
    "consumed 1 0C",
    "consumed 1 0C x",
    "take",
    "connect 1",
    "connect 1 2",
    "connect 1 0 0",
    f"connect 1 1 * 3 {ABSENT}",
    "connect 1 1 * 0 - - - - - - -",
    f"connect 1 1 * 0 {ABSENT} -",
    f"connect 1 1 {'0' * 63} 0 {ABSENT}",
    f"connect 1 1 * 0 , - - - - - - -",
    "next 1 1",
    "result 1 3 0",
    "result 1 0 3",
    "result 1 0 0 0,1",
    "result 1 0 0 256,1",
    "result 1 0 0 1,2",
    "result 1 0 0 1",
    "show 1",
    "shows",
    "buffer 10",
    "record 1 1 -",
    "header 7F000001 23 '1",
    "dump",
    "\0",
    "tick\0 1",
    "tick 1\r",
    "\xff\xfe",
    "tick " + "0" * 8187,
    "x" * 100000,
]


def cut(text):
    """The calls and answers of lines with an arrow; comments stay calls without an answer."""
    for line in text.split("\n"):
        call, _, answer = line.partition("→")
        yield call.rstrip(), answer.strip() if answer else None


def crowded():
    """15. The line fills: 256 PIDs tracked, removed 4,001 later, tracked and removed again; then no place is free."""
    report = " report 0 0 0 00000000"
    yield f"start 0 {DEFAULTS}", "started"
    for time in (0, 4001):
        for pid in range(256):
            yield f"waiting {time} {pid:02X}", "ok"
        yield f"tick {time + 4001}", "ok" + report
    yield "waiting 8002 0C", "refused 15"
    yield "tick 8002", "ok"
    yield "take 8002", "set 00 0"
    yield "waiting 8002 0C", "ok"
    yield "waiting 8002 0D", "refused 15"
    yield "profiles 8002 1,0D,0,-,1", "refused 15"
    yield "profiles 8002 1,0C,0,-,1", "ok"
    yield "profiles 12003", "refused 15"
    sets, removals = ([f"{pid:02X}{mark}" for pid in range(256)] for mark in "fx")
    line = ",".join(sets[1:] + removals + sets + removals + ["0Cf"])
    yield "show", f"show 8002 0 00 0 - 0Cf+ {line} -"
    yield "take 8002", "set 01 0"
    yield "profiles 12003", "ok" + report
    yield "take 12003", "set 02 0"
    yield "waiting 12003 0E", "ok"
    for call in ("register 16004", "leave 16004 1", "response 16004 0C", "consumed 16004 0C 40", "tick 16004"):
        yield call, "refused 15"
    yield "waiting 16004 0E", "ok" + report


def at_the_limit():
    """A line of 8,191 bytes is taken, leading zeros and all; one byte more is bad. Comments give no answer at any length."""
    yield f"start 0 {DEFAULTS}", "started"
    yield "tick " + "0" * 8185 + "1", "ok"
    yield "tick " + "0" * 8186 + "1", "bad line"
    yield "#" * 9000, None
    yield "show", "show 1 0 - 0 - - - -"


def written(pairs):
    """Calls and answers as bytes."""
    return [(call.encode("latin-1"), answer and answer.encode("latin-1")) for call, answer in pairs]


def main():
    top = pathlib.Path(__file__).resolve().parent.parent
    pairs = written(cut(REFUSALS)) + written(cut(VALUES)) + written(at_the_limit()) + [(line.encode("latin-1"), b"bad line") for line in BAD]
    pairs += written([("show", "show 1 0 - 0 - - - -")]) + written(crowded())
    for example in sorted((top / "oracle/examples").glob("*.txt")):
        if not example.name.startswith("recorder"):
            text = "\n".join(line for line in example.read_text().splitlines() if not line.startswith("#"))
            # a refused start gives the box that stands before the first one
            pairs += written([(f"start 16777216000 {DEFAULTS}", "refused 1"), *cut(text)])
    calls, answers = ((top / "oracle/sample" / name).read_bytes().split(b"\n")[:-1] for name in ("calls.txt", "answers.txt"))
    pairs += zip(calls, answers, strict=True)
    # a last line without a line feed is a line
    pairs += written([(f"start 0 {DEFAULTS}", "started"), ("tick 3", "ok")])
    (top / "crates/replay/stdin").write_bytes(b"\n".join(call for call, _ in pairs))
    (top / "crates/replay/stdout").write_bytes(b"".join(answer + b"\n" for _, answer in pairs if answer is not None))


if __name__ == "__main__":
    main()

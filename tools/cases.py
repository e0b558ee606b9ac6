"""Hand-written schedules for tools/compare, with what the rules say their reports hold.

The expectations are written out by hand from docs/RULES.md, not taken from either program.
"""

from collections import namedtuple

# expected: the whole report, or None; ending: the last lines of the report, or None.
Case = namedtuple("Case", "name schedule expected ending")

MOST_EVENTS = 16384
MOST_BYTES = 60000


def header(discipline, stations, events):
    return discipline.encode() + bytes([stations, events >> 8, events & 255])


def schedule(discipline, stations, events, noise=b""):
    """Events as text: letter and station, with a pick after a colon: "S0 G0 G0:5"."""
    parsed = [parse_event(word) for word in events.split()]
    letters = bytes(letter for letter, _, _ in parsed)
    operands = b"".join(bytes([station, pick]) for _, station, pick in parsed)
    return header(discipline, stations, len(parsed)) + letters + operands + noise


def parse_event(word):
    station, _, pick = word[1:].partition(":")
    return ord(word[0]), int(station), int(pick or 0)


def report(events, outcomes, totals):
    """The report of these events: "22/00 23/00 .." are places and answers, totals as printed."""
    lines = []
    for word, outcome in zip(events.split(), outcomes.split(), strict=True):
        place, answer = outcome.split("/")
        _, station, _ = parse_event(word)
        lines.append(f"{word[0]} {station:03} {place} {answer}")
    lines.append("E " + totals)
    return "".join(line + "\n" for line in lines)


def played(name, discipline, stations, events, outcomes, totals, noise=b""):
    return Case(name, schedule(discipline, stations, events, noise),
                report(events, outcomes, totals), None)


def refused(name, data, number, index=0):
    return Case("refused: " + name, data, f"R {number:02} {index:05}\n", None)


# The goes of a station that runs alone, by their picks; 0 where no pick is looked at.

def alone(discipline, n, p):
    """Picks of the goes from a start to 37."""
    below = [q for q in range(p)] + [0]
    above = [x for q in range(p + 1, n) for x in (q, 0)] + [0]
    if discipline == "B":
        return [0] + below + above
    turns = list(range(2 * n)) + [0]
    doors = [x for q in range(n) for x in (q, 0)] + [0]
    return [0] + turns + [0, 0] + [0] + [0] + below + above + [0] + doors


def recovery(discipline, n):
    """Picks of the goes from 39 back to 21, the other stations being idle."""
    if discipline == "B":
        return [0]
    doors = [x for q in range(n) for x in (q, 0)] + [0]
    turns = [x for k in range(2 * n) for x in (k, 0)] + [0]
    return [0, 0, 0, 0] + doors + turns


def goes(p, picks):
    return " ".join(f"G{p}:{pick}" for pick in picks)


def schedule_refusals():
    one = schedule("A", 1, "S0 G0 G0")
    full = MOST_EVENTS * b"G" + MOST_EVENTS * b"\0\0"
    over = header("A", 1, MOST_EVENTS + 1) + (MOST_EVENTS + 1) * b"G\0\0"
    padded = one + bytes(MOST_BYTES - len(one))
    yield refused("no bytes", b"", 20)
    for length in (1, 2, 3):
        yield refused(f"{length} bytes", one[:length], 20)
    yield refused("3 bytes, discipline unknown", b"x\0\0", 20)
    for letter in ("C", "a", "b", "@", "\0"):
        yield refused(f"discipline {letter!r}", letter.encode() + one[1:], 21)
    yield refused("discipline hex ff", b"\xff" + one[1:], 21)
    yield refused("discipline, then all the others", b"C\x00\xff\xffx", 21)
    yield refused("16,385 events, all there", over, 22)
    yield refused("16,385 events, cut, no stations", header("A", 0, MOST_EVENTS + 1), 22)
    yield refused("65,535 events", header("B", 1, 65535) + full, 22)
    yield refused("one byte short", one[:-1], 23)
    yield refused("letters only", one[:7], 23)
    yield refused("header only, an event wanted", header("B", 1, 1), 23)
    yield refused("cut, and no stations", header("B", 0, 1) + b"x\0", 23)
    yield refused("16,384 events, one byte short", (header("A", 1, MOST_EVENTS) + full)[:-1], 23)
    yield refused("256 events, one byte short", (header("A", 1, 256) + 256 * b"G\0\0")[:-1], 23)
    for stations in (0, 17, 18, 64, 255):
        yield refused(f"{stations} stations, no event", header("A", stations, 0), 1)
        yield refused(f"{stations} stations, plain", header("B", stations, 1) + b"S\0\0", 1)
    yield refused("no stations, and an unknown letter", header("A", 0, 1) + b"x\0\0", 1)
    yield refused("17 stations, and an unknown letter", header("A", 17, 1) + b"x\0\0", 1)
    yield refused("unknown letter first", header("A", 1, 2) + b"xS" + bytes(4), 24, 0)
    yield refused("unknown letter last", header("A", 1, 2) + b"Sx" + bytes(4), 24, 1)
    yield refused("unknown letter in the middle", header("A", 1, 5) + b"SGxGx" + bytes(10), 24, 2)
    yield refused("unknown letter, of 16,384 the last",
                  header("A", 1, MOST_EVENTS) + (MOST_EVENTS - 1) * b"G" + b"x"
                  + bytes(2 * MOST_EVENTS), 24, MOST_EVENTS - 1)
    yield refused("unknown letter 12,345",
                  header("B", 16, MOST_EVENTS) + 12345 * b"S" + b"T" + (MOST_EVENTS - 12346) * b"?"
                  + bytes(2 * MOST_EVENTS), 24, 12345)
    for letter in b"sgwflERABPTV\x00\n \xd3\xff":
        yield refused(f"letter hex {letter:02x}",
                      header("B", 2, 2) + bytes([ord("S"), letter]) + bytes(4), 24, 1)
    yield refused("60,001 bytes", padded + b"\0", 25)
    yield refused("60,001 bytes, all zero", bytes(MOST_BYTES + 1), 25)
    yield refused("60,001 bytes, wrong in every way", b"C\x00\xff\xff" + bytes(MOST_BYTES - 3), 25)
    yield refused("60,002 bytes", padded + b"\0\0", 25)
    yield refused("200,000 bytes", padded + bytes(140000), 25)
    yield refused("60,000 bytes, all zero", bytes(MOST_BYTES), 21)
    yield refused("60,000 bytes, 16,385 events",
                  header("A", 1, MOST_EVENTS + 1) + bytes(MOST_BYTES - 4), 22)


def sizes():
    nothing = "E 00000 00000 00000\n"
    for discipline in "AB":
        for stations in range(1, 17):
            yield Case(f"no event, {discipline}, {stations} stations",
                       header(discipline, stations, 0), nothing, None)
        yield Case(f"no event, one byte of noise, {discipline}",
                   header(discipline, 3, 0) + b"\xff", nothing, None)
        yield Case(f"no event, 60,000 bytes, {discipline}",
                   header(discipline, 16, 0) + bytes(MOST_BYTES - 4), nothing, None)
        idle = header(discipline, 1, MOST_EVENTS) + MOST_EVENTS * b"G" + bytes(2 * MOST_EVENTS)
        lines = MOST_EVENTS * "G 000 21 51\n" + "E 00000 00000 16384\n"
        yield Case(f"16,384 idle goes, {discipline}", idle, lines, None)
        yield Case(f"16,384 idle goes, 60,000 bytes, {discipline}",
                   idle + bytes(MOST_BYTES - len(idle)), lines, None)
    unknown = header("B", 4, 256) + 256 * b"L" + b"".join(bytes([i, i]) for i in range(256))
    yield Case("a leave of each station number", unknown,
               "".join(f"L {i:03} {'21 09' if i < 4 else '00 03'}\n" for i in range(256))
               + nothing, None)


def call_refusals():
    for discipline, start in (("A", "22"), ("B", "28")):
        yield played(f"unknown stations, {discipline}", discipline, 2,
                     "S2 G2 W2 F2 L2 S255 G255 W255 F255 L255 S1 G16:1",
                     10 * "00/03 " + f"{start}/00 00/03", "00000 00000 00000")
        yield played(f"at 21, {discipline}", discipline, 1, "G0 G0:255 W0 L0 S0 S0 L0 F0 S0 F0 L0",
                     f"21/51 21/51 21/07 21/09 {start}/00 {start}/04 {start}/09 39/00 39/04 39/08"
                     " 39/09", "00000 00000 00002")
    yield played("second start at 22; stirs at 22 and 23", "A", 1, "S0 S0 W0 W0 G0 W0",
                 "22/00 22/04 22/00 22/00 23/00 23/07", "00000 00000 00001")
    yield played("picks at 23", "A", 3, "S1 G1:77 G1:6 G1:255 G1:5 G1:5 G1:0 G1:32 G1:37",
                 "22/00 23/00 23/05 23/05 23/00 23/05 23/00 23/05 23/05", "00000 00000 00000")
    yield played("picks at 29 and 32, plain", "B", 3,
                 "S1 G1:9 G1:1 G1:2 G1:0 G1:0 G1:1 G1:2 G1:0 G1:255 S2 G2 G2:2 G2:3 G2:1",
                 "28/00 29/00 29/05 29/05 29/00 32/00 32/05 33/00 32/00 37/00"
                 " 28/00 29/00 29/05 29/05 30/00", "00001 00000 00000")
    yield played("calls at 37 and 38, plain", "B", 1, "S0 G0 G0 G0 G0 G0:3 W0 S0 L0 L0 S0 W0 G0 G0",
                 "28/00 29/00 32/00 37/00 37/06 37/06 37/07 37/04 38/00 38/09 38/04 38/00 21/00"
                 " 21/51", "00001 00001 00006")
    yield played("a pass for each arrival, plain", "B", 1, "S0 G0 G0 G0 L0 G0 S0 G0 G0 G0 L0 L0 G0",
                 "28/00 29/00 32/00 37/00 38/00 21/00 28/00 29/00 32/00 37/00 38/00 38/09 21/00",
                 "00002 00002 00010")
    run = "S0 " + goes(0, alone("A", 1, 0))
    places = "22/00 23/00 23/00 23/00 24/00 25/00 26/00 28/00 29/00 32/00 34/00 35/00 36/00 35/00 37/00"
    yield played("four-line alone, then calls at 37 and 38", "A", 1,
                 run + " G0 W0 S0 L0 L0 S0 W0 G0 G0",
                 places + " 37/06 37/07 37/04 38/00 38/09 38/04 38/00 21/00 21/51",
                 "00001 00001 00017")
    back = [0, 0, 0, 0, 1, 0, 7, 9, 2, 0, 7, 1, 7, 9, 9]
    yield played("four-line, failure at 37 and the way back", "A", 1,
                 run + " F0 L0 " + goes(0, back),
                 places + " 39/00 39/09 40/00 41/00 42/00 43/00 43/05 44/00 43/00 45/00 45/05"
                 " 46/00 45/00 46/00 45/00 21/00 21/51", "00001 00001 00027")


def lone_runs():
    """From a start to 37 in 6N + 8 - p goes (four-line) or 2N + 1 - p (plain)."""
    for discipline in "AB":
        for n in range(1, 17):
            for p in range(n):
                picks = alone(discipline, n, p)
                assert len(picks) == (6 * n + 8 - p if discipline == "A" else 2 * n + 1 - p)
                data = schedule(discipline, n, f"S{p} {goes(p, picks)} L{p} G{p}")
                rounds = len(picks) + 2 if n == 1 else 0
                yield Case(f"alone, {discipline}, {p} of {n}", data, None,
                           f"G {p:03} 37 00\nL {p:03} 38 00\nG {p:03} 21 00\n"
                           f"E 00001 00001 {rounds:05}\n")


def failures():
    """A failure at each point of a lone run, stirred, and the way back, at each point failed."""
    for discipline, n, p in (("A", 2, 0), ("A", 3, 2), ("B", 3, 1)):
        run = alone(discipline, n, p)
        back = recovery(discipline, n)
        for cut in range(len(run) + 1):
            events = f"S{p} {goes(p, run[:cut])} W{p} F{p} W{p} F{p} {goes(p, back)} G{p}"
            yield Case(f"failure after {cut} goes, {discipline}", schedule(discipline, n, events),
                       None, None)
        for cut in range(len(back)):
            events = f"F{p} {goes(p, back[:cut])} W{p} F{p} S{p} {goes(p, back)} S{p} {goes(p, run)}"
            yield Case(f"second failure after {cut} goes, {discipline}",
                       schedule(discipline, n, events), None, None)
    for cut, ends in ((6, 0), (7, 1)):
        picks = alone("B", 3, 0)[:cut]
        yield Case(f"plain, ends by a failure after {cut} goes",
                   schedule("B", 3, f"S0 {goes(0, picks)} F0"), None,
                   f"F 000 39 00\nE {ends:05} {ends:05} 00000\n")
    hold = len(alone("A", 2, 0)) - 6
    for cut, ends in ((hold - 1, 0), (hold, 1), (hold + 1, 1)):
        picks = alone("A", 2, 0)[:cut]
        yield Case(f"four-line, ends by a failure after {cut} goes",
                   schedule("A", 2, f"S0 {goes(0, picks)} F0"), None,
                   f"F 000 39 00\nE {ends:05} {ends:05} 00000\n")


def two_stations():
    first = "S0 G0 G0:0 G0:1 G0:2 G0:3 G0 G0"
    second = "S1 G1 G1:0 G1:1 G1:2 G1:3 G1 G1 G1 G1:1 G1:0 G1 G1"
    yield played("the second waits for the turn of the first", "A", 2, first + " " + second,
                 "22/00 23/00 23/00 23/00 23/00 23/00 24/00 25/00"
                 " 22/00 23/00 23/00 23/00 23/00 23/00 24/00 25/00 26/00 26/05 27/00 27/50 27/50",
                 "00000 00000 00001")
    yield played("plain, the lower goes first", "B", 2,
                 "S0 S1 G0 G1 G1:0 G1 G1 G0 G0:1 G0 G0 G1 L0 G1 G0 G1 G1 G1:0 G1 G1",
                 "28/00 28/00 29/00 29/00 30/00 31/00 31/50 32/00 33/00 32/00 37/00 31/50 38/00"
                 " 31/50 21/00 28/00 29/00 29/00 32/00 37/00", "00002 00001 00005")
    yield played("plain, the lower waits for a claim above", "B", 2,
                 "S1 G1 G1:0 S0 G0 G0 G0:1 G0 G1 G1 L1 G0 G1 G0 G0",
                 "28/00 29/00 29/00 28/00 29/00 32/00 33/00 33/50 32/00 37/00 38/00 33/50 21/00"
                 " 32/00 37/00", "00002 00001 00004")
    yield played("rounds of two", "B", 2, "G0 G0 G1 G1 G1 G0 S0 W0 F0 G1",
                 "21/51 21/51 21/51 21/51 21/51 21/51 28/00 28/00 39/00 21/51",
                 "00000 00000 00002")


def loose_lines():
    stirred = "S0 W0 "
    readers = "S1 G1 S2 G2 S3 G3 "
    opened = "28/00 28/00 " + 3 * "28/00 29/00 "
    yield played("tape 05: high, low, high", "B", 4, stirred + readers + "G1:0 G2:0 G3:0",
                 opened + "30/00 29/00 30/00", "00000 00000 00000", b"\x05")
    yield played("a wrong pick uses no noise", "B", 4, stirred + readers + "G1:3 G1:0 G2:0 G3:0",
                 opened + "29/05 30/00 29/00 30/00", "00000 00000 00000", b"\x05")
    yield played("a settled line uses no noise", "B", 4, stirred + readers + "G2:1 G1:0 G2 G3:0",
                 opened + "30/00 30/00 31/00 29/00", "00000 00000 00000", b"\x05")
    yield played("no noise, last settled low", "B", 4, stirred + readers + "G1:0 G2:0 G3:0",
                 opened + "29/00 29/00 29/00", "00000 00000 00000")
    nine = " ".join(f"S{q} G{q}" for q in range(1, 10))
    reads = " ".join(f"G{q}:0" for q in range(1, 10))
    yield played("one byte of noise begins again", "B", 10, stirred + nine + " " + reads,
                 "28/00 28/00 " + 9 * "28/00 29/00 " + "30/00 " + 7 * "29/00 " + "30/00",
                 "00000 00000 00000", b"\x01")
    yield played("two bytes of noise, the first used up", "B", 10, stirred + nine + " " + reads,
                 "28/00 28/00 " + 9 * "28/00 29/00 " + 8 * "29/00 " + "30/00",
                 "00000 00000 00000", b"\x00\x01")
    leaving = "S0 G0 G0 G0:1 G0 G0 L0 W0 S1 G1 G1:0"
    left = "28/00 29/00 32/00 33/00 32/00 37/00 38/00 38/00 28/00 29/00 "
    yield played("no noise, last settled high", "B", 2, leaving, left + "30/00",
                 "00001 00001 00001")
    yield played("noise low over a line last high", "B", 2, leaving, left + "29/00",
                 "00001 00001 00001", b"\x00")
    waiting = "S1 G1 G1:0 S0 G0 G0 G0:1 F1 W1 G0 G0 G0 G0"
    yield played("waiting on a loose line uses noise", "B", 2, waiting,
                 "28/00 29/00 29/00 28/00 29/00 32/00 33/00 39/00 39/00 33/50 33/50 33/50 32/00",
                 "00000 00000 00001", b"\x07")
    yield played("a loose line of a failed station settles", "B", 2,
                 "S1 G1 G1:0 S0 G0 G0 G0:1 F1 W1 G1 G0",
                 "28/00 29/00 29/00 28/00 29/00 32/00 33/00 39/00 39/00 21/00 32/00",
                 "00000 00000 00002", b"\xff")
    yield played("all four lines of a failed station are loose", "A", 2,
                 "F0 W0 S1 G1 G1:0 G1:1 G1:2 G1:3 G1 G1 G1 G1:2 G1:3 G1:0 G1 G1:1 G1:0 G1:1 G1",
                 "39/00 39/00 22/00 23/00 23/00 23/00 23/00 23/00 24/00 25/00 26/00 26/05 26/05"
                 " 27/00 26/00 27/00 27/50 27/50 26/00", "00000 00000 00000", b"\x1b")


def worked():
    data = bytes.fromhex("42010006") + b"SGGGLG" + bytes(12)
    yield Case("the worked schedule", data,
               "S 000 28 00\nG 000 29 00\nG 000 32 00\nG 000 37 00\nL 000 38 00\nG 000 21 00\n"
               "E 00001 00001 00005\n", None)


def all_cases():
    for part in (worked, schedule_refusals, sizes, call_refusals, lone_runs, failures,
                 two_stations, loose_lines):
        yield from part()

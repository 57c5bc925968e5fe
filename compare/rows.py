#!/usr/bin/env python3
"""A second reading of document 01's "A runway row" and agreement check, and of the places in a row that request 2 of document 02 asks for.

    python3 compare/rows.py lines             writes the rows of test_run's input, one a line: the edges, then seeded ones, good and damaged
    python3 compare/rows.py answers < lines   writes what each is answered: the refusal number and its place in the line, or 0, the number of
                                              disagreeing thirds and the canonical row; a line that is too long for the desk is 5, without a place

The model takes a line apart before it judges anything: spaces first, then the number of slashes tells a short row from a full one. What is no
row is taken apart once more, at its spaces alone, to find its leftmost fault.
"""
import random
import re
import sys

CONTAMINANTS = [
    "COMPACTED SNOW",
    "DRY SNOW",
    "DRY SNOW ON TOP OF COMPACTED SNOW",
    "DRY SNOW ON TOP OF ICE",
    "FROST",
    "ICE",
    "SLUSH",
    "STANDING WATER",
    "WATER ON TOP OF COMPACTED SNOW",
    "WET",
    "WET ICE",
    "WET SNOW",
    "WET SNOW ON TOP OF COMPACTED SNOW",
    "WET SNOW ON TOP OF ICE",
]
DESCRIPTIONS = CONTAMINANTS + ["DRY", "NR"]
COVERAGES = ["NR", "25", "50", "75", "100"]
LEAST_DEPTH = {"STANDING WATER": 4, "SLUSH": 3, "WET SNOW": 3, "DRY SNOW": 3}
# A longer line is no row, at the desk and for test_run.
LONG_LINE = 4096
MONTH_DAYS = [31, 29, 31, 30, 31, 30, 31, 31, 30, 31, 30, 31]
RUNWAYS = {"%02d%s" % (n, side) for n in range(1, 19) for side in ("", "L", "C", "R")}
WIDTHS = {"%02d" % n for n in range(1, 100)}
DEPTHS = {"%02d" % n: n for n in range(3, 1000)}

# Table 1, where the depth does not matter.
CODES = {
    "DRY": "6",
    "FROST": "5",
    "WET": "53",
    "COMPACTED SNOW": "43",
    "DRY SNOW ON TOP OF COMPACTED SNOW": "3",
    "WET SNOW ON TOP OF COMPACTED SNOW": "3",
    "ICE": "1",
    "WET ICE": "0",
    "WATER ON TOP OF COMPACTED SNOW": "0",
    "DRY SNOW ON TOP OF ICE": "0",
    "WET SNOW ON TOP OF ICE": "0",
    "NR": "0123456",
}
# Table 1, to 3 mm and above.
DEEP_CODES = {
    "SLUSH": ("5", "2"),
    "DRY SNOW": ("5", "3"),
    "WET SNOW": ("5", "3"),
    "STANDING WATER": ("", "2"),
}


# ---- The model


def real_time(text):
    if len(text) != 8 or any(c not in "0123456789" for c in text):
        return False
    month, day, hour, minute = (int(text[i : i + 2]) for i in (0, 2, 4, 6))
    return 1 <= month <= 12 and 1 <= day <= MONTH_DAYS[month - 1] and hour < 24 and minute < 60


def parts(line):
    """Time, runway, codes, coverages, depths, descriptions and width ("" for none), or None where the line has another shape."""
    if line != line.strip(" ") or " /" in line or "/ " in line:
        return None
    words = [w for w in line.split(" ") if w]
    width = ""
    if words and "/" not in words[-1] and words[-1] not in " ".join(DESCRIPTIONS).split(" "):
        width = words.pop()
        if width not in WIDTHS:
            return None
    if len(words) < 4:
        return None
    time, runway, codes = words[:3]
    rest = words[3:]
    if sum(w.count("/") for w in rest) == 2:
        coverages = depths = "NR/NR/NR"
        descriptions = " ".join(rest)
        if codes != "6/6/6" and descriptions != "DRY/DRY/DRY":
            return None
    else:
        coverages, depths, descriptions = rest[0], "".join(rest[1:2]), " ".join(rest[2:])
    groups = [g.split("/") for g in (codes, coverages, depths, descriptions)]
    if any(len(g) != 3 for g in groups):
        return None
    return [time, runway] + groups + [width]


def good_third(code, coverage, depth, description):
    if code not in tuple("0123456") or description not in DESCRIPTIONS or coverage not in COVERAGES:
        return False
    if coverage != "NR" and description not in CONTAMINANTS:
        return False
    if depth == "NR":
        return True
    return depth in DEPTHS and description in LEAST_DEPTH and LEAST_DEPTH[description] <= DEPTHS[depth]


# ---- The leftmost fault of a line that is no row


def joined(part):
    """Three of a part."""
    return "(%s)/(%s)/(%s)" % (part, part, part)


# The longest description comes first, so that it is the one taken. Several spaces may stand for one.
DESCRIPTION = "|".join(sorted(DESCRIPTIONS, key=len, reverse=True)).replace(" ", " +")
SHAPES = {
    "codes": re.compile(joined("[0-6]")),
    "coverages": re.compile(joined("NR|25|50|75|100")),
    "depths": re.compile(joined("NR|0[3-9]|[1-9][0-9]|[1-9][0-9][0-9]")),
    "descriptions": re.compile(joined(DESCRIPTION)),
    "short": re.compile(joined(DESCRIPTION) + "( +(0[1-9]|[1-9][0-9]))?"),
}


def words_of(line, start=0):
    """What stands between the spaces, with the place of each; where nothing stands any more, it is the line's end."""
    return [(m[0], m.start()) for m in re.compile("[^ ]+").finditer(line, start)] + [("", len(line))] * 6


def single(text):
    return " ".join(text.split())


def fault(line):
    """The number of the group at fault and the place of its first byte, or None where there is no fault."""
    if not line or line[0] == " ":
        return 5, 0
    (time, _), (runway, at_runway), (codes, at_codes), (coverages, at_coverages), (depths, at_depths), (_, at_descriptions) = words_of(line)[:6]
    if not real_time(time):
        return 5, 0
    if runway not in RUNWAYS:
        return 24, at_runway
    if not SHAPES["codes"].fullmatch(codes):
        return 25, at_codes
    short = SHAPES["short"].fullmatch(line, at_coverages)
    if short:
        allowed = codes == "6/6/6" or short.group(1, 2, 3) == ("DRY", "DRY", "DRY")
        return None if allowed else (26, at_coverages)
    coverages = SHAPES["coverages"].fullmatch(coverages)
    if not coverages:
        return 26, at_coverages
    depths = SHAPES["depths"].fullmatch(depths)
    if not depths:
        return 26, at_depths
    descriptions = SHAPES["descriptions"].match(line, at_descriptions)
    if not descriptions:
        return 27, at_descriptions
    kinds = [single(text) for text in descriptions.groups()]
    if any(c != "NR" and k not in CONTAMINANTS for c, k in zip(coverages.groups(), kinds)):
        return 26, at_coverages
    if any(d != "NR" and int(d) < LEAST_DEPTH.get(k, 1000) for d, k in zip(depths.groups(), kinds)):
        return 26, at_depths
    behind = descriptions.end()
    if behind == len(line):
        return None
    if line[behind] != " ":
        return 28, behind
    (width, at_width), (_, at_next) = words_of(line, behind)[:2]
    if width not in WIDTHS:
        return 28, at_width
    return None if line.endswith(width) and at_next == len(line) else (28, at_next)


def refused(line):
    return "%d %d" % fault(line)


# ---- The agreement check, and the answer


def agrees(code, _coverage, depth, description):
    if description in DEEP_CODES:
        return code in DEEP_CODES[description][DEPTHS.get(depth, 0) > 3]
    return code in CODES[description]


def answer(line):
    if len(line) > LONG_LINE:
        return "5"
    row = parts(line)
    if row is None:
        return refused(line)
    time, runway, codes, coverages, depths, descriptions, width = row
    thirds = list(zip(codes, coverages, depths, descriptions))
    if not (real_time(time) and runway in RUNWAYS and all(good_third(*t) for t in thirds)):
        return refused(line)
    groups = [codes, coverages, depths, descriptions]
    if set(coverages + depths) == {"NR"} and (set(codes) == {"6"} or set(descriptions) == {"DRY"}):
        groups = [codes, descriptions]
    words = [time, runway] + ["/".join(g) for g in groups] + [width] * (width != "")
    return " ".join(["0", str(sum(not agrees(*t) for t in thirds))] + words)


def cut(message):
    """The lines of an input: up to an LF, less one CR before it; what follows the last LF is a line if it is not empty."""
    *ended, last = message.split("\n")
    return [l[:-1] if l.endswith("\r") else l for l in ended] + [last] * (last != "")


# ---- The edges: every row below is typed as it stands

GOOD = "01120610 07L 3/5/5 75/25/NR 12/NR/NR DRY SNOW/FROST/DRY"

TIMES = """02290000 02300000 00010000 01000000 01310000 01320000 04300000 04310000 12312359 13010000 01012400 01010060 1010000
    001010000 0101000A NR""".split()

RUNWAY_EDGES = "00 01 18 19 36 07L 07C 07R 07l 07LR 7 7L 007 L07 L NR".split()

# What stands behind time and runway; \t is a tab.
GROUPS = """\
6/6/6 NR/NR/NR
6/6/6 NR/NR/NR 30
6/6/6 NR/NR/NR NR/NR/NR
6/6/6 NR/NR/NR NR/NR/NR 30
6/6/6 NR/NR/NR NR/NR/NR NR/NR/NR
6/6/6 NR/NR/NR NR/NR/NR NR/NR/NR 30
6/6/6 NR/NR/NR NR/NR/NR NR/NR/NR NR/NR/NR
6/6/6 NR/NR/NR DRY/DRY/DRY
6/6/6 NR/NR/NR NR/NR/NR DRY/DRY/DRY
6/6/6 DRY/DRY/DRY
6/6/6 FROST/ICE/WET
6/6/6 25/NR/NR FROST/ICE/WET
6/6/6 25/NR/NR NR/NR/NR FROST/ICE/WET
6/6/6 NR/NR/NR NR/NR/NR FROST/ICE/WET
6/6/6
6/6/6 30
5/5/5 NR/NR/NR
5/5/5 NR/NR/NR 30
5/5/5 NR/NR/NR NR/NR/NR NR/NR/NR
5/5/5 FROST/FROST/FROST
6/6/5 DRY/DRY/NR
6/6/5 NR/NR/NR NR/NR/NR DRY/DRY/NR
0/1/2 DRY/DRY/DRY
0/1/2 NR/NR/NR NR/NR/NR DRY/DRY/DRY
0/1/2 NR/NR/NR NR/NR/NR NR/NR/NR
NR/6/6 DRY/DRY/DRY
7/6/6 DRY/DRY/DRY
06/6/6 DRY/DRY/DRY
6/6 DRY/DRY/DRY
6/6/6/6 DRY/DRY/DRY
6/6/6 DRY/DRY
6/6/6 DRY/DRY/DRY/DRY
6/6/6 dry/dry/dry
6/6/6 DRYDRY/DRY/DRY
6/6/0 DRY/DRY/DRY SNOW ON TOP OF ICE
6/6/0 NR/NR/NR NR/NR/NR DRY/DRY/DRY SNOW ON TOP OF ICE
6/6/0 NR/NR/100 NR/NR/NR DRY/DRY/DRY SNOW ON TOP OF ICE
6/6/6 DRY/DRY/DRY SNOW ON TOP OF ICE
6/6/6 DRY/DRY/DRY SNOW ON TOP OF
6/6/6 DRY/DRY/DRY SNOW 40
6/6/6 DRY/DRY/DRYSNOW
5/5/5 100/NR/NR NR/NR/NR WET/NR/DRY
5/5/5 NR/100/NR NR/NR/NR WET/NR/DRY
5/5/5 NR/NR/100 NR/NR/NR WET/NR/DRY
5/3/4 100/100/100 NR/NR/NR WET/WET/WET
4/3/5 100/100/100 NR/NR/NR COMPACTED SNOW/COMPACTED SNOW/COMPACTED SNOW
5/5/5 NR/NR/NR 03/NR/NR SLUSH/WET/WET
5/5/5 0/25/25 NR/NR/NR WET/WET/WET
5/5/5 10/25/25 NR/NR/NR WET/WET/WET
5/5/5 025/25/25 NR/NR/NR WET/WET/WET
5/5/5 25/50/75 NR/NR/NR WET/WET/WET
5/5/5 25/50/75 NR/NR/NR WET/WET/WET 40
5/5/5 25/50/75 WET/WET/WET
5/5/5 25/50/75 NR/NR WET/WET/WET
5/5/5 NR/NR/NR 25/50/75 WET/WET/WET
2/2/2 50/50/50 099/NR/NR SLUSH/SLUSH/SLUSH
2/2/2 50/50/50 99/100/999 SLUSH/SLUSH/SLUSH
2/2/2 50/50/50 99/100/1000 SLUSH/SLUSH/SLUSH
5/2/5 50/50/50 03/04/NR SLUSH/SLUSH/SLUSH
5/2/5 50/50/50 02/04/NR SLUSH/SLUSH/SLUSH
5/2/5 50/50/50 00/04/NR SLUSH/SLUSH/SLUSH
5/2/5 50/50/50 3/04/NR SLUSH/SLUSH/SLUSH
5/3/5 50/50/50 03/04/NR WET SNOW/WET SNOW/WET SNOW
5/3/5 50/50/50 02/04/NR WET SNOW/WET SNOW/WET SNOW
3/5/3 50/50/50 03/04/NR DRY SNOW/DRY SNOW/DRY SNOW
5/3/5 50/50/50 02/04/NR DRY SNOW/DRY SNOW/DRY SNOW
2/2/2 50/50/50 03/04/NR STANDING WATER/STANDING WATER/STANDING WATER
2/2/2 50/50/50 04/05/NR STANDING WATER/STANDING WATER/STANDING WATER
5/5/6 50/50/50 04/05/NR STANDING WATER/STANDING WATER/STANDING WATER
5/5/5 50/50/50 04/NR/NR FROST/FROST/FROST
5/5/5 NR/NR/NR 04/NR/NR NR/FROST/FROST
6/6/6 NR/NR/NR 04/NR/NR DRY/DRY/DRY
0/0/0 NR/NR/NR 04/NR/NR DRY SNOW ON TOP OF ICE/WET ICE/WET SNOW ON TOP OF ICE
0/3/3 25/25/25 NR/NR/NR WATER ON TOP OF COMPACTED SNOW/DRY SNOW ON TOP OF COMPACTED SNOW/WET SNOW ON TOP OF COMPACTED SNOW
3/0/0 25/25/25 NR/NR/NR WATER ON TOP OF COMPACTED SNOW/DRY SNOW ON TOP OF COMPACTED SNOW/WET SNOW ON TOP OF COMPACTED SNOW
0/3/3 25/25/25 NR/NR/NR WATER ON TOP OF ICE/DRY SNOW ON TOP OF COMPACTED SNOW/WET SNOW ON TOP OF COMPACTED SNOW
3/3/3 100/100/100 NR/NR/NR DRY SNOW ON TOP OF COMPACTED SNOW/WET SNOW ON TOP OF COMPACTED SNOW/DRY SNOW ON TOP OF COMPACTED SNOW 99
6/6/6 DRY/DRY/DRY 00
6/6/6 DRY/DRY/DRY 01
6/6/6 DRY/DRY/DRY 99
6/6/6 DRY/DRY/DRY 5
6/6/6 DRY/DRY/DRY 100
6/6/6 DRY/DRY/DRY 030
6/6/6 DRY/DRY/DRY NR
6/6/6 DRY/DRY/DRY 30 30
6/6/6 DRY/DRY/DRY30
6/ 6/6 DRY/DRY/DRY
6 /6/6 DRY/DRY/DRY
6/6/6 DRY /DRY/DRY
6/6/6 DRY/ DRY/DRY
6/6/6 NR/NR /NR NR/NR/NR DRY/DRY/DRY
6/6/6  NR/NR/NR   NR/NR/NR  DRY/DRY/DRY    30
6/6/0 NR/NR/25 NR/NR/NR DRY/DRY/DRY  SNOW   ON  TOP    OF  ICE  45
6/6/6 D RY/DRY/DRY
6/6/6/DRY/DRY/DRY
6/6/6\tDRY/DRY/DRY
6/6/6 DRY/DRY/DRY\t30
6/6/0 NR/NR/25 NR/NR/NR DRY/DRY/DRY\tSNOW ON TOP OF ICE
6/6/6 DRY/DRY/DRY)
6/6/6 DRY/DRY/DRY 30)
6/6/6 DRY/DRY/DRY.
6/6/6X DRY/DRY/DRY
6/6/6 DRY/DRY/DRYX
6/6/6 DRY/DRY/DRY 30 X
6/6/6 DYR/DRY/DRY
6/6/6 NR/NR/NR 00
6/6/6 NR/NR/NR 100
6/6/5 DRY/DRY/NR 30
5/5/5 25/NR/NRX NR/NR/NR FROST/FROST/FROST
5/5/5 25/NR/NR NR/NR/NRFROST/FROST/FROST
5/5/5 25/NR/NR
5/5/5 03/NR/NR SLUSH/WET/WET
5/5/5 25/NR/NR 02/NR/NR SLUSH/ICE/X
5/5/5 25/NR/NR 03/NR/NR STANDING WATER/ICE/X
5/5/5 25/NR/NR 03/NR/NR STANDING WATER/ICE/ICE 00
5/5/5 25/NR/NR NR/NR/NR DRY/FROST/FROST 00
5/5/5 NR/NR/25 04/NR/NR ICE/ICE/DRY
5/5/5 25/NR/NR NR/NR/NR FROST/FROST
5/5/5 25/NR/NR NR/NR/NR FROST/FROST/
5/5/5 25/NR/NR NR/NR/NR FROST/FROST/FRST
5/5/5 25/NR/NR NR/NR/NR FROSTX/FROST/FROST
5/5/5 25/NR/NR NR/NR/NR FROST/FROST /FROST
5/5/5 25/NR/NR NR/NR/NR FROST/FROST/FROSTX 30
5/5/5 25/NR/NR NR/NR/NR FROST/FROST/FROST/FROST
5/5/5 25/NR/NR NR/NR/NR FROST/FROST/ICEBERG
5/5/5 25/NR/NR NR/NR/NR FROST/FROST/DRY SNOW ON TOP OF X
5/5/5 25/NR/NR NR/NR/NR FROST/DRY SNOW ON TOP OF X/FROST
5/5/5 25/NR/NR NR/NR/NR FROST/FROST/FROST 30
5/5/5 25/NR/NR NR/NR/NR FROST/FROST/FROST 30X
5/5/5 25/NR/NR NR/NR/NR FROST/FROST/FROST 30 X
5/5/5 25/NR/NR NR/NR/NR FROST/FROST/FROST 00""".replace("\\t", "\t").split("\n")


def long_row(size):
    """A row of so many bytes."""
    head, tail = "01120640 07R 6/6/6 DRY/DRY/DRY SNOW ON", "TOP OF ICE 45"
    return head + " " * (size - len(head) - len(tail)) + tail


def edges():
    """Each of them on a line, most ended by LF; a CR is an end only before LF."""
    plain = [GOOD]
    plain += ["%s 07 6/6/6 DRY/DRY/DRY" % t for t in TIMES]
    plain += ["01120640 %s 6/6/6 DRY/DRY/DRY" % r for r in RUNWAY_EDGES]
    plain += ["01120640 07R " + g for g in GROUPS]
    plain += ["01120640  07R   6/6/6  DRY/DRY/DRY", " " + GOOD, GOOD + " ", "\t" + GOOD, GOOD + "\t", " ", ")", "\x00", "\xff"]
    # spaces at the end of groups that are missing behind them
    plain += [" ", "   ", "01120640 ", "01120640 07 ", "01120640 07  6/6/6 ", "01120640 07 5/5/5 25/NR/NR  ", "01120640 07 6/6/6 NR/NR/NR NR/NR/NR "]
    plain += ["01120640 07 6/6/6 DRY/DRY/DRY ", "01120640 07 5/5/5 25/NR/NR NR/NR/NR ICE/ICE/ICE  ", "01120640 07 5/5/5 25/NR/NR NR/NR/NR ICE/ICE/ICE 30 "]
    plain += ["01120640 07 L 6/6/6 DRY/DRY/DRY", "0112 0640 07 6/6/6 DRY/DRY/DRY", "01120640", "01120640 07", "0112064007 6/6/6 DRY/DRY/DRY"]
    plain += [long_row(n) for n in (LONG_LINE, LONG_LINE + 1, 70000)]
    ended = [(line, "\n") for line in plain]
    ended += [("", "\n"), ("", "\r\n"), ("\r", "\r\n"), (GOOD, "\r\n"), (GOOD, "\r\r\n"), (GOOD, "\r" + GOOD + "\n"), ("\r" + GOOD, "\n")]
    ended += [(long_row(LONG_LINE), "\r\n"), (long_row(LONG_LINE + 1), "\r\n")]
    return "".join(line + end for line, end in ended)


# ---- Seeded rows


def third(rng, kind):
    """Code, coverage, depth and description: mostly what the rules take, now and then a code off Table 1."""
    description = kind or rng.choice(DESCRIPTIONS)
    coverage = rng.choice(COVERAGES) if description in CONTAMINANTS else "NR"
    depth = "NR"
    if description in LEAST_DEPTH and rng.random() < 0.8:
        least = LEAST_DEPTH[description]
        depth = "%02d" % rng.choice([least, least, 4, 5, 99, 100, 999, rng.randint(least, 999)])
    allowed = [c for c in "0123456" if agrees(c, coverage, depth, description)]
    code = rng.choice(allowed) if allowed and rng.random() < 0.7 else rng.choice("0123456")
    return code, coverage, depth, description


def seeded_row(rng):
    month = rng.randint(1, 12)
    time = "%02d%02d%02d%02d" % (month, rng.randint(1, MONTH_DAYS[month - 1]), rng.randint(0, 23), rng.randint(0, 59))
    shape = rng.random()
    kind = "DRY" if shape < 0.2 else None
    thirds = [third(rng, kind) for _ in range(3)]
    if 0.2 <= shape < 0.35:
        thirds = [("6", "NR", "NR", t[3]) for t in thirds]
    codes, coverages, depths, descriptions = (list(g) for g in zip(*thirds))
    groups = [codes, coverages, depths, descriptions]
    if shape < 0.35 and rng.random() < 0.5:
        groups = [codes, descriptions]
    words = [time, rng.choice(sorted(RUNWAYS))] + ["/".join(g) for g in groups]
    if rng.random() < 0.4:
        words.append(rng.choice(sorted(WIDTHS)))
    line = " ".join(words)
    if rng.random() < 0.3:
        line = "".join(" " * rng.randint(1, 3) if c == " " else c for c in line)
    return line


def damaged(rng, line):
    """One byte deleted, inserted, doubled or replaced."""
    i = rng.randrange(len(line))
    byte = rng.choice(" /0123456789ANRLCDYWSTE\t\r" if rng.random() < 0.9 else [chr(b) for b in range(256)])
    middle = rng.choice(["", byte + line[i], line[i] * 2, byte])
    return line[:i] + middle + line[i + 1 :]


def regrouped(rng, line):
    """Groups left out at the end or within, one put in, spaces put at an end, or something glued to a group."""
    words = line.split(" ")
    i = rng.randrange(len(words))
    extra = rng.choice(["30", "00", "X", "NR/NR/NR", "DRY", "25/NR/NR", "ICE/ICE/ICE"])
    kind = rng.randrange(6)
    if kind == 0:
        words = words[:i]
    elif kind == 1:
        del words[i]
    elif kind == 2:
        words.insert(i, extra)
    elif kind == 3:
        words.append(extra)
    elif kind == 4:
        words[i] += rng.choice(["X", "/", "/NR", "\t", "0", ")"])
    return rng.choice(["", "", "", "", " "]) + " ".join(words) + rng.choice(["", "", "", "", " ", "  "])


def seeded(seed, count):
    rng = random.Random(seed)
    lines = []
    for _ in range(count):
        line = seeded_row(rng)
        kind = rng.random()
        if kind < 0.3:
            line = damaged(rng, line)
        elif kind < 0.5:
            line = regrouped(rng, line)
        lines.append(line + rng.choice(["\n", "\n", "\n", "\r\n"]))
    return "".join(lines)


def main(words):
    if words == ["lines"]:
        # The last line is left without an end.
        text = edges() + seeded(1, 300) + GOOD
    elif words == ["answers"]:
        text = "".join(answer(l) + "\n" for l in cut(sys.stdin.buffer.read().decode("latin-1")))
    else:
        sys.exit(__doc__)
    sys.stdout.buffer.write(text.encode("latin-1"))


if __name__ == "__main__":
    main(sys.argv[1:])

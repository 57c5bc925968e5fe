#!/usr/bin/env python3
"""A second reading of the desk program, with its two desks, to compare the program desk with; the rows are those of rows.py.

    python3 compare/desk.py input             writes the stored input of desk
    python3 compare/desk.py input SEED        writes a seeded one, good or damaged
    python3 compare/desk.py answers < input   writes what desk has to answer
    python3 compare/desk.py run PROGRAM N     runs PROGRAM on N seeded inputs, fed in pieces, and compares

The model gives each desk a board of its own, keeps the reports and works out what each runway shows from all of them, where the program has
one board and keeps only what is shown. Times are told apart by their month's place in the season first, and by the other digits then.
"""
import random
import re
import subprocess
import sys

from rows import LONG_LINE, RUNWAYS, answer, cut, damaged, regrouped, seeded_row

SIDES = ["", "L", "C", "R"]


def order(runway):
    return int(runway[:2]), SIDES.index(runway[2:])


# The months as a season has them, from 1 July to 30 June.
SEASON = "07 08 09 10 11 12 01 02 03 04 05 06".split()


def observed(row):
    """When a row was observed, in the order of the season; a time alone will do."""
    return SEASON.index(row[:2]), row[2:8]


OPENING = re.compile("[A-Z]{4}((?: (?:0[1-9]|1[0-8])[LCR]?/[12]){1,8})")


def opened(line):
    """The runways of an opening line and the owner of each, or None."""
    shape = OPENING.fullmatch(line)
    if shape is None:
        return None
    owners = dict(word.split("/") for word in shape[1].split())
    # A runway that stands twice is one of the owners only once.
    rising = list(owners) == sorted(owners, key=order) and len(owners) == line.count("/")
    return owners if rising else None


def report(line):
    """0, the desk's digit, the time, the runway and the canonical row of a line; or its refusal number alone."""
    start, row = line[:2], line[2:]
    if len(line) > LONG_LINE or start not in ["%d " % n for n in range(10)]:
        return ["5"]
    told = answer(row).split(" ", 2)
    # The place of a refused row is not printed.
    if told[0] != "0":
        return told[:1]
    text = told[2]
    return ["0", start[0]] + text.split(" ")[:2] + [text]


def answers(message):
    lines = cut(message)
    owners = opened(lines[0]) if lines else None
    if owners is None:
        return "REFUSED 17\n"
    boards = {desk: {r: [] for r in owners if owners[r] == desk} for desk in "12"}
    out = ["OPEN"] + [reported(boards, report(line)) for line in lines[1:]]
    out += [max(boards[owners[r]][r], key=observed) for r in owners if boards[owners[r]][r]]
    return "\n".join(out) + "\n"


def reported(boards, told):
    """The answer to a report; a row that is taken joins those of its runway."""
    if told[0] != "0":
        return told[0]
    _, desk, time, runway, text = told
    if desk not in boards:
        return "23"
    taken = boards[desk].get(runway)
    if taken is None:
        return "22" if any(runway in board for board in boards.values()) else "18"
    if any(observed(time) <= observed(row) for row in taken):
        return "20"
    taken.append(text)
    return "0"


def behind_runway(row):
    """A row without its first two groups, time and runway, from the space behind them on."""
    return re.sub("^[^ ]+ +[^ ]+", "", row)


# An owner's end as it must not be.
NO_OWNERS = ["", "/", "/0", "/3", "/8", "/12", "/1/1", "/1/2", "//1", " /1", "/ 1", "/1/", "1", "/L", "/a", "/-1", "/1 "]

# What may stand before a row instead of a digit and a space.
NO_STARTS = ["", "1", "2", "12 ", "21 ", "00 ", "A ", "a ", " 1 ", " ", "1  ", "2   ", "1\t", "\t", "1,", "1/ ", "\xb2 ", "-1 ", "1 2 "]


def seeded_opening(rng):
    """An opening line, mostly a good one, and the runways with their owners."""
    runways = sorted(rng.sample(sorted(RUNWAYS), rng.randint(1, 8)), key=order)
    desks = rng.choice(["12", "12", "12", "1", "2"])
    owners = {r: rng.choice(desks) for r in runways}
    words = ["XQAA"] + ["%s/%s" % pair for pair in owners.items()]
    kind = rng.random()
    if kind < 0.05:
        i = rng.randint(1, len(runways))
        words[i] = runways[i - 1] + rng.choice(NO_OWNERS)
    elif kind < 0.08:
        # a runway twice, for the other desk or the same, or out of order
        i = rng.randint(1, len(runways))
        words.insert(rng.choice([i, i + 1, len(words)]), runways[i - 1] + rng.choice(["/1", "/2"]))
    line = " ".join(words)
    return (damaged(rng, line) if 0.08 <= kind < 0.18 else line), owners


def seeded_sender(rng, owner):
    """Mostly the owner, else the other desk or none."""
    kind = rng.random()
    if kind < 0.72:
        return owner
    return {"1": "2", "2": "1"}[owner] if kind < 0.87 else rng.choice("03456789")


# The times of a shift: of one morning, of New Year's night, about 1 July, where a season ends and another starts, and about the end of
# February; at last some of each.
SHIFTS = [
    ["0112%02d%02d" % (hour, minute) for hour in range(3) for minute in range(10)],
    "12312349 12312350 12312359 01010000 01010001 01010010".split(),
    "06302350 06302358 06302359 07010000 07010001 07010010".split(),
    "02282358 02282359 02290000 02292359 03010000 03010001".split(),
]
SHIFTS.append([time for times in SHIFTS for time in times[-4:]])


def seeded_line(rng, owners, times):
    row = seeded_row(rng)
    owner = rng.choice("12")
    if rng.random() < 0.85:
        runway = rng.choice(list(owners))
        row, owner = " ".join([rng.choice(times), runway]) + behind_runway(row), owners[runway]
    line = seeded_sender(rng, owner) + " " + row
    kind = rng.random()
    if kind < 0.12:
        return damaged(rng, line)
    if kind < 0.20:
        return line[:2] + regrouped(rng, row)
    if kind < 0.26:
        return rng.choice(NO_STARTS) + row
    if kind < 0.29:
        return rng.choice(["", "1", "1 ", "2 ", "7 ", " ", "1\t", "1 )", "2 RUBBISH", "5 RUBBISH"])
    if kind < 0.33:
        # right below, at and above the longest line, and the longest without its start
        size = 4096 + rng.choice([-1, 0, 0, 1, 1, 2, 3])
        return line[:2] + row.replace(" ", " " * (1 + size - len(line)), 1)
    if kind < 0.35:
        return "1 " + "A" * rng.choice([4094, 4095, 4097, 4098, 8191, 8192, 8193, 20000])
    return line


def seeded_input(seed):
    rng = random.Random(seed)
    first, owners = seeded_opening(rng)
    times = rng.choice(SHIFTS)
    lines = [first]
    for _ in range(rng.randint(0, 40)):
        if len(lines) > 1 and rng.random() < 0.15:
            # sent again, by whichever desk
            lines.append(rng.choice("12") + rng.choice(lines[1:])[1:])
        else:
            lines.append(seeded_line(rng, owners, times))
    ends = [rng.choice(["\n", "\n", "\r\n"]) for _ in lines]
    if rng.random() < 0.3:
        ends[-1] = rng.choice(["", "\r"])
    return "".join(l + e for l, e in zip(lines, ends))


def stretched(line, size):
    """A line of so many bytes by the spaces before its last group but one."""
    head, *tail = line.rsplit(" ", 2)
    return head + " " * (1 + size - len(line)) + " ".join(tail)


STORED = "".join(
    line + "\n"
    for line in [
        "XQAA 07/1 07L/1 07R/2 17L/2 17R/1 18C/2 18R/1",
        "1 01120610 07L 3/5/5 75/25/NR 12/NR/NR DRY SNOW/FROST/DRY",
        "2 01120640 07R  6/6/6 NR/NR/NR NR/NR/NR DRY/DRY/DRY",
        # the same again, by the other desk, by none; an earlier one, a later one by the other desk and by the owner
        "2 01120640 07R 6/6/6 DRY/DRY/DRY",
        "1 01120640 07R 6/6/6 DRY/DRY/DRY",
        "3 01120640 07R 6/6/6 DRY/DRY/DRY",
        "2 01120639 07R 6/6/6 DRY/DRY/DRY",
        "1 01120641 07R 6/6/6 DRY/DRY/DRY",
        "2 01120641 07R 6/6/6 DRY/DRY/DRY 40\r",
        # not on the board: for either desk, and for none
        "1 01120641 08 6/6/6 DRY/DRY/DRY",
        "2 01120641 08 6/6/6 DRY/DRY/DRY",
        "0 01120641 08 6/6/6 DRY/DRY/DRY",
        # no row, empty, closed, over-long
        "1 01120641 19 6/6/6 DRY/DRY/DRY",
        "9 01120640 19 6/6/6 DRY/DRY/DRY",
        "3 RUBBISH",
        "",
        "1 01120641 07 6/6/6 DRY/DRY/DRY)",
        "1 01120641 07 6/6/6 DRY/DRY/DRY" + " " * 5000,
        # each group of a row at fault, whoever sends it
        "1 01320641 07 6/6/6 DRY/DRY/DRY",
        "2 01120641 07X 6/6/6 DRY/DRY/DRY",
        "3 01120641 07 6/6/7 DRY/DRY/DRY",
        "1 01120641 07 5/5/5 NR/NR/NR",
        "1 01120641 07 5/5/5 25/25/25 NR/NR/NR",
        "1 01120641 07 5/5/5 25/25/25 NR/NR/NR ICE/ICES/ICE",
        "1 01120641 07 5/5/5 25/25/25 NR/NR/NR ICE/ICE/ICES",
        "1 01120641 07 5/5/5 25/25/25 NR/NR/NR ICE/ICE/ICE 00\r",
        stretched("1 01120641 07 6/6/6 DRY/DRY/DRY", 4097),
        stretched("1 01120641 07 6/6/6 DRY/DRY/DRY", 4096),
        # other starts
        "12 01120642 07 6/6/6 DRY/DRY/DRY",
        "A 01120642 07 6/6/6 DRY/DRY/DRY",
        " 1 01120642 07 6/6/6 DRY/DRY/DRY",
        "101120642 07 6/6/6 DRY/DRY/DRY",
        "01120642 07 6/6/6 DRY/DRY/DRY",
        "1  01120642 07 6/6/6 DRY/DRY/DRY",
        "1\t01120642 07 6/6/6 DRY/DRY/DRY",
        "1",
        "1 ",
        "2 02290000 18C 5/5/5 NR/25/50 NR/NR/NR WET/FROST/FROST",
        "2 02300000 18C 6/6/6 NR/NR/NR",
        # New Year's night: 1 January is the later one, and 31 December comes too late then
        "1 12312350 18R 6/6/6 DRY/DRY/DRY",
        "1 01010010 18R 6/6/6 DRY/DRY/DRY",
        "1 12312359 18R 6/6/6 DRY/DRY/DRY",
        # the season's last time and its first, in either order
        "2 06302359 17L 6/6/6 DRY/DRY/DRY",
        "2 07010000 17L 6/6/6 DRY/DRY/DRY",
        "1 07010000 17R 6/6/6 DRY/DRY/DRY",
        "1 06302359 17R 6/6/6 DRY/DRY/DRY",
        # from 29 February on, and back
        "2 03010000 18C 6/6/6 DRY/DRY/DRY",
        "2 02282359 18C 6/6/6 DRY/DRY/DRY",
        "2 12312359 18C 6/6/6 DRY/DRY/DRY",
    ]
)


def run(program, count):
    for seed in range(count):
        message = seeded_input(seed)
        rng = random.Random(-seed - 1)
        child = subprocess.Popen([program], stdin=subprocess.PIPE, stdout=subprocess.PIPE)
        data, at = message.encode("latin-1"), 0
        try:
            while at < len(data):
                n = rng.choice([1, 7, 100, 4096, len(data)])
                child.stdin.write(data[at : at + n])
                child.stdin.flush()
                at += n
        except BrokenPipeError:
            pass
        try:
            child.stdin.close()
        except BrokenPipeError:
            pass
        told = child.stdout.read().decode("latin-1")
        # A program that stops reading early, as after a refused opening, ends well all the same.
        status = child.wait()
        if status != 0:
            sys.exit("seed %d: status %d" % (seed, status))
        if told != answers(message):
            sys.exit("seed %d: differs\n%s\n--- expected\n%s" % (seed, told, answers(message)))
    print("%d inputs, no difference" % count)


def main(words):
    if words == ["input"]:
        text = STORED
    elif len(words) == 2 and words[0] == "input":
        text = seeded_input(int(words[1]))
    elif words == ["answers"]:
        text = answers(sys.stdin.buffer.read().decode("latin-1"))
    elif len(words) == 3 and words[0] == "run":
        return run(words[1], int(words[2]))
    else:
        sys.exit(__doc__)
    sys.stdout.buffer.write(text.encode("latin-1"))


if __name__ == "__main__":
    main(sys.argv[1:])

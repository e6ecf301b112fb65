#!/usr/bin/env python3
"""Reads card files, batch files and scorekeepers' files, from the page FORMAT.md alone.

read_card.py judge FILE..             the judge's number of each card
read_card.py dump FILE..              the number and the pairs of each card
read_card.py terms FILE..             the number and the terms of each card
read_card.py batch FILE..             the number of each batch file
read_card.py after CARD BATCH         the pairs after the batch was applied
read_card.py after --text CARD FILE   the same of a scorekeepers' file
read_card.py page CARD TERM           the bulletin page of all positions of a term

Names in quotation marks, in the docstrings below, are the headings of the page.
"""

import heapq
import re
import struct
import sys
from bisect import bisect_right
from operator import lt

MOST_NUMBER = 4294967295    # "Terms"
MOST_CARD_WORDS = 1050632   # "Words of a card"
MOST_RECORDS = 4096         # "A batch file"
PART_LINES = 4096           # "A scorekeepers' file"

# "A scorekeepers' file": more than ten figures are above MOST_NUMBER, so of another form too.
FIGURES = rb"\t(0|[1-9][0-9]{0,9})"
LINE = re.compile(rb"A" + FIGURES + FIGURES + rb"|R" + FIGURES * 3)


# ---- words and cards

def read_words(path, most):
    """The first `most` words of a file, and how many bytes the file has (the page's opening)."""
    with open(path, "rb") as file:
        data = file.read(4 * most)
        length = len(data)
        while rest := file.read(1 << 20):
            length += len(rest)
    count = len(data) // 4
    return struct.unpack("<%dI" % count, data[:4 * count]), length


def judge_configuration(words, length):
    """Section "A sound card": the rows of its table before the last; 0 where none of them holds."""
    if length < 8:
        return 1
    form, size, places, start, old, new, term, position = words[:8]
    if form != 1:
        return 2
    if not (8 <= size <= 1024 and 2 <= places <= 1024):
        return 3
    if length != 8 + 2 * places + places * size:
        return 1
    if start >= places or old + new > places - 1:
        return 3
    if new == 0:
        return 3 if term or position else 0
    return 0 if term and position else 3


def read_block(words, start, size):
    """Section "A block": its entries as (term, positions), or None where it is ill formed."""
    entries, at, end, last_term = [], start, start + size, 0
    while end - at >= 3 and words[at] != 0:
        term, count = words[at], words[at + 1]
        if term <= last_term or not 1 <= count <= end - at - 2:
            return None
        positions = words[at + 2:at + 2 + count]
        if positions[0] == 0 or not all(map(lt, positions, positions[1:])):
            return None
        entries.append((term, positions))
        last_term, at = term, at + 2 + count
    return None if not entries or any(words[at:end]) else entries


def read_segment(words, start, count):
    """Section "Words of a card": a segment's blocks; None where they give a ground for 4."""
    size, places = words[1], words[2]
    blocks, last = [], (0, 0)
    for step in range(count):
        place = (start + step) % places
        block = read_block(words, 8 + 2 * places + place * size, size)
        if block is None:
            return None
        first = (block[0][0], block[0][1][0])
        if first != words[8 + 2 * place:10 + 2 * place] or first <= last:
            return None
        blocks.append(block)
        last = last_pair(block)
    return blocks


def last_pair(block):
    """The last pair of a block's entries."""
    return (block[-1][0], block[-1][1][-1])


def read_index(words):
    """Section "What is in the index": {term: rising positions}; None where the number is 4."""
    start, old_length, new_length = words[3:6]
    boundary = words[6:8]
    old = read_segment(words, start, old_length)
    new = read_segment(words, start + old_length, new_length)
    if old is None or new is None or (new and last_pair(new[-1]) != boundary):
        return None
    if old and last_pair(old[0]) <= boundary:
        return None
    index = {}
    for block in new:
        for term, positions in block:
            index.setdefault(term, []).extend(positions)
    for block in old:
        for term, positions in block:
            above = [p for p in positions if (term, p) > boundary]
            if above:
                index.setdefault(term, []).extend(above)
    return index


def read_card(path):
    """Section "A sound card": the verdict (a number or 'no card'), the index, the boundary."""
    words, length = read_words(path, MOST_CARD_WORDS)
    if length % 4:
        return "no card", {}, (0, 0)
    number = judge_configuration(words, length // 4)
    if number:
        return number, {}, (0, 0)
    index = read_index(words)
    return (4, {}, (0, 0)) if index is None else (0, index, words[6:8])


# ---- what is printed

def dump(index):
    """Section "A dump": a line for each pair."""
    return "".join("%d\t%d\n" % (term, p) for term in sorted(index) for p in index[term])


def terms(index):
    """Section "A dump", its end: a line for each term, with the count of its positions."""
    return "".join("%d\t%d\n" % (term, len(index[term])) for term in sorted(index))


def page(index, term):
    """Section "A bulletin page": five positions on a line of 65 bytes and a line feed."""
    positions = index.get(term, [])
    lines = []
    for at in range(0, len(positions), 5):
        head = "%10s" % ("" if at else term)
        lines.append((head + "".join(" %10d" % p for p in positions[at:at + 5])).ljust(65) + "\n")
    return "".join(lines)


# ---- batches

def record_is_good(kind, term, first, last):
    """Section "A batch file", first table: whether a record's first four words are as it says."""
    if kind not in (1, 2, 3) or (term == 0) != (kind == 3) or first == 0 or last == 0:
        return False
    return kind != 1 or first == last


def judge_batch(records):
    """Section "A batch file", second table: the grounds that lie in the records themselves."""
    if not all(record_is_good(*record[:4]) for record in records):
        return 6
    arrivals = {record[4] for record in records}
    if 0 in arrivals or len(arrivals) < len(records):
        return 14
    order = [record[1:3] for record in records]
    return 7 if any(map(lt, order[1:], order)) else 0


def read_batch(path):
    """Section "A batch file": its verdict (a number or 'no batch') and its records."""
    words, length = read_words(path, 5 * MOST_RECORDS)
    if length % 4:
        return "no batch", []
    if length % 20 or length > 20 * MOST_RECORDS:
        return 6, []
    records = [words[at:at + 5] for at in range(0, len(words), 5)]
    return judge_batch(records), records


def read_line(line, number):
    """Section "A scorekeepers' file": the record of a line, None for a line of another form."""
    match = LINE.fullmatch(line)
    if match is None:
        return None
    figures = [int(group) for group in match.groups() if group is not None]
    if max(figures) > MOST_NUMBER:
        return None
    if len(figures) == 2:
        return (1, figures[0], figures[1], figures[1], number)
    return (2, *figures, number)


def read_text(path):
    """Section "A scorekeepers' file": of one of any length its number (12, 6, 0) and records."""
    with open(path, "rb") as file:
        lines = file.read().split(b"\n")
    if lines[-1] == b"":
        lines.pop()
    records = [read_line(line, number) for number, line in enumerate(lines, 1)]
    if None in records:
        return 12, []
    return (0 if all(record_is_good(*r[:4]) for r in records) else 6), records


# ---- a batch applied: "A batch file", the paragraph below its first table

def latest_removals(ranges):
    """Steps over the positions: from starts[i] on, arrivals[i] is the greatest of a removal."""
    ranges = sorted(ranges)
    starts, arrivals, open_ranges, taken = [0], [0], [], 0
    for point in sorted({r[0] for r in ranges} | {r[1] + 1 for r in ranges}):
        while taken < len(ranges) and ranges[taken][0] <= point:
            heapq.heappush(open_ranges, (-ranges[taken][2], ranges[taken][1]))
            taken += 1
        while open_ranges and open_ranges[0][1] < point:
            heapq.heappop(open_ranges)
        starts.append(point)
        arrivals.append(-open_ranges[0][0] if open_ranges else 0)
    return starts, arrivals


def at_position(steps, position):
    """The greatest arrival number of a removal that touches the position; 0 for none."""
    return steps[1][bisect_right(steps[0], position) - 1]


def decide(term, held, added, steps, boundary):
    """The positions of a term after a batch: `added` gives the additions' greatest arrivals."""
    left = []
    for position in sorted(added.keys() | held):
        was_in = position in held
        addition = added.get(position, 0)
        removal = max(at_position(step, position) for step in steps)
        if (term, position) <= boundary or addition == removal == 0:
            stays = was_in
        else:
            stays = addition > removal
        if stays:
            left.append(position)
    return left


def apply_records(index, records, boundary):
    """Changes the index by a batch's records; only pairs above the boundary change."""
    additions, removals = {}, {}
    for kind, term, first, last, arrival in records:
        if kind == 1:
            added = additions.setdefault(term, {})
            added[first] = max(arrival, added.get(first, 0))
        else:
            removals.setdefault(term, []).append((first, last, arrival))
    every = [latest_removals(removals.pop(0))] if 0 in removals else []
    touched = additions.keys() | removals.keys() | (index.keys() if every else set())
    nothing = latest_removals([])
    for term in touched:
        own = latest_removals(removals[term]) if term in removals else nothing
        held = set(index.pop(term, ()))
        left = decide(term, held, additions.get(term, {}), [own] + every, boundary)
        if left:
            index[term] = left


def apply_text(index, records, boundary):
    """Section "A scorekeepers' file", in parts: the first goes on with an open pass, if any.

    Later parts find no pass open, so of all their lines that touch a pair the last decides,
    as the page says; they are taken together here, with the lines' numbers in the whole file.
    """
    apply_records(index, records[:PART_LINES], boundary)
    apply_records(index, records[PART_LINES:], (0, 0))


# ---- commands

def write(text):
    """ASCII to standard output, its line feeds as they are."""
    sys.stdout.buffer.write(text.encode("ascii"))


def show_card(path, show):
    """The lines of judge (show is None), dump and terms for one file."""
    verdict, index, _ = read_card(path)
    if show is None:
        write("%s\n" % verdict)
    else:
        write("# %s\n" % verdict)
        if verdict == 0:
            write(show(index))


def show_after(card, file, read, apply):
    """The dump after an update; the card's number goes before the file's."""
    verdict, index, boundary = read_card(card)
    records = []
    if verdict == 0:
        verdict, records = read(file)
    if verdict != 0:
        write("# %s\n" % verdict)
        return
    apply(index, records, boundary)
    write(dump(index))


def show_page(card, term):
    """The page of a term; of a card that is not sound, its number as with `after`."""
    verdict, index, _ = read_card(card)
    write(page(index, term) if verdict == 0 else "# %s\n" % verdict)


def is_term(text):
    """Section "Terms": decimal, from 1 to 4,294,967,295."""
    return re.fullmatch("[1-9][0-9]{0,9}", text) is not None and int(text) <= MOST_NUMBER


def run(command, rest):
    """Runs a command; False where it is not one of those above."""
    shows = {"judge": None, "dump": dump, "terms": terms}
    if command in shows and rest:
        for path in rest:
            show_card(path, shows[command])
    elif command == "batch" and rest:
        for path in rest:
            write("%s\n" % read_batch(path)[0])
    elif command == "after" and len(rest) == 3 and rest[0] == "--text":
        show_after(rest[1], rest[2], read_text, apply_text)
    elif command == "after" and len(rest) == 2:
        show_after(rest[0], rest[1], read_batch, apply_records)
    elif command == "page" and len(rest) == 2 and is_term(rest[1]):
        show_page(rest[0], int(rest[1]))
    else:
        return False
    return True


def main(arguments):
    """The exit status: 0; 1 where a file cannot be read; 2 where the call is wrong."""
    try:
        if arguments and run(arguments[0], arguments[1:]):
            return 0
    except OSError as error:
        sys.stdout.flush()
        print("read_card.py: %s" % error, file=sys.stderr)
        return 1
    print(__doc__, file=sys.stderr)
    return 2


if __name__ == "__main__":
    sys.exit(main(sys.argv[1:]))

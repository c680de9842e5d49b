#!/usr/bin/env python3
"""Draws a report as one SVG file that stands by itself: the places across, the accused down, and where each agrees with the copy.

usage: evidence.py REPORT [--word WORD] [--title TITLE] > report.svg

REPORT is what `trace` or `accuse` put out. With the word that was traced, the picture shows also what the copy has at each place;
with the title, its name, its number of places and which segment each place is. Nothing is checked: the picture tells what the
report tells. Python alone, no packages.
"""
import argparse
import html
import json

PAPER, INK, FAINT, AGREES, LOST, LIMIT = "#ffffff", "#1b1f24", "#d9dee4", "#1f5fa8", "#f3f5f7", "#b3261e"
ROW, TOP, BAR = 26, 112, 180


def arguments():
    parser = argparse.ArgumentParser(description="draws a report as an SVG picture, on the standard output")
    parser.add_argument("report")
    parser.add_argument("--word", help="the word that was traced")
    parser.add_argument("--title", help="the title that was traced")
    return parser.parse_args()


def read(name):
    with open(name, encoding="utf-8") as file:
        return file.read()


def read_word(name):
    """The symbols of a word, None where the copy shows none."""
    return [None if token == "-" else int(token) for token in read(name).rstrip("\n").split(",")]


def read_title(name):
    """The name of a title and the numbers of its marked segments."""
    lines = read(name).split("\n")
    begin = 12 + int(lines[10].split(" ")[1])
    count = int(lines[begin - 1].split(" ")[1])
    return lines[1].split(" ", 1)[1], [int(line) for line in lines[begin:begin + count]]


def text(x, y, words, size=13, colour=INK, anchor="start", weight="normal"):
    return (f'<text x="{x}" y="{y}" font-size="{size}" fill="{colour}" text-anchor="{anchor}" font-weight="{weight}">'
            f"{html.escape(str(words))}</text>")


def box(x, y, width, height, colour, hint):
    return f'<rect x="{x}" y="{y}" width="{width}" height="{height}" fill="{colour}"><title>{html.escape(hint)}</title></rect>'


def scale(count, left, cell, marked):
    """The numbers of the places, as many as find room, and below them those of their segments."""
    step = next(step for step in (1, 2, 5, 10, 20, 50, 100) if step * cell >= 24)
    for place in range(0, count, step):
        x = left + place * cell + cell / 2
        yield text(x, TOP - 8, place, 10, anchor="middle")
        if marked:
            yield text(x, TOP - 21, marked[place], 10, "#6b7480", "middle")
    yield text(left - 10, TOP - 8, "place", 10, anchor="end")
    if marked:
        yield text(left - 10, TOP - 21, "segment", 10, "#6b7480", "end")


def copy_row(word, left, cell, y):
    """What the copy shows: a symbol in hexadecimal digits where there is room for it, an empty box where it shows none."""
    yield text(left - 10, y + 17, "the copy", 12, anchor="end")
    for place, symbol in enumerate(word):
        shown = "nothing to be read" if symbol is None else f"symbol {symbol}"
        yield box(left + place * cell, y + 3, cell - 1, ROW - 6, LOST if symbol is None else FAINT, f"place {place}: {shown}")
        if symbol is not None and cell >= 18:
            yield text(left + place * cell + cell / 2 - 0.5, y + 17, f"{symbol:x}", 11, anchor="middle")


def accused_row(entry, report, count, left, cell, y):
    """One accused: the agreeing places, and a bar with the number of them."""
    yield text(left - 10, y + 17, entry["name"], 13, anchor="end", weight="bold")
    for place in range(count):
        agrees = place in entry["places"]
        hint = f'{entry["name"]}, place {place}: {"agrees" if agrees else "does not agree"}'
        yield box(left + place * cell, y + 3, cell - 1, ROW - 6, AGREES if agrees else LOST, hint)
    agreement, bar = len(entry["places"]), left + count * cell + 24
    yield box(bar, y + 6, BAR * agreement / max(report["readable"], 1), ROW - 12, AGREES, f"{agreement} places")
    yield text(bar + BAR + 10, y + 17, f'{agreement} of {report["readable"]}, serial {entry["serial"]}', 12)


def picture(report, word, title):
    accused, readable, bound = report["accused"], report["readable"], report["bound"]
    name, marked = title or (None, [])
    count = len(word) or len(marked) or max([readable] + [place + 1 for entry in accused for place in entry["places"]])
    cell = 24 if count <= 32 else 12 if count <= 64 else 5
    left = 40 + 8 * max([8] + [len(entry["name"]) for entry in accused])
    bar = left + count * cell + 24
    rows = len(accused) + (1 if word else 0)
    bottom = TOP + ROW * max(rows, 1)
    least = -(-readable // bound)
    parts = [text(20, 30, f"Who agrees with the copy{f' of {name}' if name else ''}", 18, weight="bold"),
             text(20, 54, f"{readable} places can be read. The bound is {bound}: accused is who agrees with at least "
                  f"{readable}/{bound} of them, which is {least} or more."), *scale(count, left, cell, marked)]
    y = TOP
    if word:
        parts += copy_row(word, left, cell, y)
        y += ROW
    for entry in accused:
        parts += accused_row(entry, report, count, left, cell, y)
        y += ROW
    if accused:
        x = bar + BAR / bound
        parts += [f'<line x1="{x}" y1="{TOP - 2}" x2="{x}" y2="{bottom + 4}" stroke="{LIMIT}" stroke-dasharray="4 3"/>',
                  text(x, TOP - 8, f"{readable}/{bound}", 11, LIMIT, "middle")]
    else:
        parts.append(text(left, y + 17, "Nobody is accused."))
    parts.append(text(20, bottom + 30, "Drawn from the report as it stands; nothing is checked here.", 11, "#6b7480"))
    width, height = max(bar + BAR + 150, 800), bottom + 46
    return (f'<svg xmlns="http://www.w3.org/2000/svg" width="{width}" height="{height}" viewBox="0 0 {width} {height}" '
            f'font-family="sans-serif">\n<rect width="{width}" height="{height}" fill="{PAPER}"/>\n' + "\n".join(parts) + "\n</svg>")


def main():
    given = arguments()
    word = read_word(given.word) if given.word else []
    title = read_title(given.title) if given.title else None
    print(picture(json.loads(read(given.report)), word, title))


main()

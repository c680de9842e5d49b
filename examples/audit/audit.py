#!/usr/bin/env python3
"""Traces a copy once more, by a plain count and without the program, so that nobody need trust the program's decoder.

usage: audit.py TITLE REG COPY C

Reads the title, the register, the copy's playlist and the copy's segments, all as files of the current folder. Compares every
licensee of the register with the copy, place by place, and prints the report, byte for byte as `trace TITLE REG COPY C` does:
everybody whose agreement times C is at least the number of readable places. Where too few places are readable it prints the
program's line for that and ends with 15. Files of another form end it with a message and 1.

Python alone, no packages. What it rests on: SHA-256 of Python, and the formats and rules of docs/formats.md, which stand again
in the comments here.
"""
import hashlib
import json
import re
import sys

# An element of GF(2^m) is a number below 2^m: bit i is the coefficient of x^i. Products are reduced by these polynomials.
POLYNOMIALS = {4: 0x13, 5: 0x25, 6: 0x43, 7: 0x89, 8: 0x11D}
PLAIN_NAME = re.compile(r"[A-Za-z0-9._-]{1,64}")


def need(holds, what):
    if not holds:
        sys.exit(what)


def lines_of(name):
    """The lines of a text in which a line feed ends every line, the last one included."""
    with open(name, encoding="utf-8", newline="") as file:
        text = file.read()
    need(text.endswith("\n"), f"{name}: the last line has no line feed")
    return text[:-1].split("\n")


def value(line, key):
    """What stands behind the key and a space."""
    need(line.startswith(key + " "), f"a line with {key} was expected, not {line!r}")
    return line[len(key) + 1:]


def number(text):
    need(re.fullmatch("0|[1-9][0-9]*", text), f"{text!r} is no number")
    return int(text)


def read_register(name):
    """m, k, a, b and the names in order of serial. Who is withdrawn is traced like everybody else."""
    lines = lines_of(name)
    need(len(lines) >= 5 and lines[0] in ("register 1", "register 2"), f"{name} is no register")
    m, k, a, b = (number(value(line, key)) for line, key in zip(lines[1:5], "mkab"))
    need(4 <= m <= 8 and 2 <= k <= 13 and a % 2 == 1 and a < 2 ** (m * k) and b < 2 ** (m * k), f"{name}: bad numbers")
    names = lines[5:]
    if lines[0] == "register 2":
        need(all(re.match("(active|withdrawn) ", line) for line in names), f"{name}: a licensee is neither active nor withdrawn")
        names = [line.split(" ", 1)[1] for line in names]
    need(all(map(PLAIN_NAME.fullmatch, names)) and len(set(names)) == len(names), f"{name}: a bad name, or one twice")
    need(len(names) <= min(2 ** (m * k), 200_000), f"{name}: too many licensees")
    return m, k, a, b, names


def read_title(name):
    """m, k, c, the number of places, and for each variant's SHA-256 in hexadecimal its place and symbol."""
    lines = iter(lines_of(name) + [""])
    need(next(lines) == "title 1", f"{name} is no title")
    value(next(lines), "name")
    m, k, c = (number(value(next(lines), key)) for key in "mkc")
    for key in ("prefix", "suffix", "version", "target", "sequence"):
        value(next(lines), key)
    for _ in range(number(value(next(lines), "segments"))):
        need(re.match("[01] [0-9]+ .", next(lines)), f"{name}: a bad segment")
    places = number(value(next(lines), "marked"))
    for _ in range(places):
        number(next(lines))
    variants = {}
    for place in range(places):
        for symbol in range(2 ** m):
            digest = next(lines)
            need(re.fullmatch("[0-9a-f]{64}", digest) and digest not in variants, f"{name}: a bad digest, or one twice")
            variants[digest] = place, symbol
    need(list(lines) == [""], f"{name}: lines behind the last digest")
    return m, k, c, places, variants


def segments_of(copy):
    """The names that a media playlist lists: every line that is not blank and does not begin with #."""
    with open(copy, "rb") as file:
        lines = [line[:-1] if line.endswith(b"\r") else line for line in file.read().split(b"\n")]
    need(lines[0] == b"#EXTM3U" and b"#EXT-X-ENDLIST" in lines, f"{copy} is no playlist with an end")
    return [line.decode() for line in lines if line.strip(b" ") and not line.startswith(b"#")]


def word_of(copy, places, variants):
    """At each place the symbol that the copy shows there, or None where it shows no variant of the place, or two and more."""
    shown = [set() for _ in range(places)]
    for name in segments_of(copy):
        with open(name, "rb") as file:
            digest = hashlib.sha256(file.read()).hexdigest()
        if digest in variants:
            place, symbol = variants[digest]
            shown[place].add(symbol)
    return [symbols.pop() if len(symbols) == 1 else None for symbols in shown]


def products(m):
    """The table of products of GF(2^m): products(m)[x][y] is x times y."""
    def product(x, y):
        result = 0
        for i in range(m):
            if y >> i & 1:
                result ^= x << i
        for i in range(m - 2, -1, -1):
            if result >> (m + i) & 1:
                result ^= POLYNOMIALS[m] << i
        return result
    return [[product(x, y) for y in range(2 ** m)] for x in range(2 ** m)]


def agreeing_places(message, word, m, k, times):
    """The places where the codeword of the message has the symbol of the word. The message's digits in base 2^m are the
    coefficients of a polynomial, lowest first; its symbol at place i is its value at the element i."""
    coefficients = [message >> (m * j) & (2 ** m - 1) for j in range(k)]
    agreeing = []
    for place, shown in enumerate(word):
        symbol = 0
        for coefficient in reversed(coefficients):
            symbol = times[symbol][place] ^ coefficient
        if symbol == shown:
            agreeing.append(place)
    return agreeing


def main():
    need(len(sys.argv) == 5, "usage: audit.py TITLE REG COPY C")
    title, register, copy, bound = sys.argv[1:4] + [number(sys.argv[4])]
    m, k, c, places, variants = read_title(title)
    bits, dimension, a, b, names = read_register(register)
    need((m, k) == (bits, dimension), "the title and the register have other numbers m and k")
    need(1 <= bound <= c, f"the bound is not 1 to {c}")
    word = word_of(copy, places, variants)
    readable = sum(symbol is not None for symbol in word)
    if readable <= bound ** 2 * (k - 1):
        print(f"error 15 {readable} {bound ** 2 * (k - 1)}")
        sys.exit(15)
    times, accused = products(m), []
    for serial, name in enumerate(names):
        agreeing = agreeing_places((a * serial + b) % 2 ** (m * k), word, m, k, times)
        if len(agreeing) * bound >= readable:
            accused.append({"name": name, "places": agreeing, "serial": serial})
    report = {"accused": accused, "bound": bound, "readable": readable}
    print(json.dumps(report, separators=(",", ":"), sort_keys=True))


main()

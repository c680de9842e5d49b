"""What the scripts of this folder share: how programs are found, built and timed.

Wall times are the least of several runs. Ratios are taken in one run of a script, so that what else the machine does weighs
on both sides alike; where two commands are compared closely they take turns.
"""
import os
import resource
import subprocess
import sys
import time

TOP = os.path.dirname(os.path.dirname(os.path.abspath(__file__)))

# Tables of GF(2^bits) in C, and a multiple of one slice added to another by byte shuffles: beside both the proved loops are timed.
FIELD_IN_C = r"""
#include <stdint.h>
#include <stdio.h>
#include <stdlib.h>
#include <string.h>
#ifdef __SSSE3__
#include <tmmintrin.h>
#endif

static uint8_t exponents[1021];
static uint16_t logarithms[256];
static int bits;

static void set_field(void) {
    static const int polynomials[] = {0x13, 0x25, 0x43, 0x89, 0x11D};
    int size = 1 << bits, x = 1;
    memset(exponents, 0, sizeof exponents);
    logarithms[0] = 2 * (size - 1);
    for (int i = 0; i < 2 * (size - 1); i++) {
        exponents[i] = x;
        if (i < size - 1) logarithms[x] = i;
        x <<= 1;
        if (x & size) x ^= polynomials[bits - 4];
    }
}

static inline uint8_t product(uint8_t x, uint8_t y) {
    return exponents[logarithms[x] + logarithms[y]];
}

#ifdef __SSSE3__
static void add_multiple(uint8_t *xs, const uint8_t *ys, size_t n, uint8_t factor) {
    uint8_t low[16], high[16] = {0};
    for (int i = 0; i < 16; i++) low[i] = product(factor, i);
    for (int i = 0; i < 1 << (bits - 4); i++) high[i] = product(factor, 16 * i);
    __m128i l = _mm_loadu_si128((const __m128i *)low), h = _mm_loadu_si128((const __m128i *)high), mask = _mm_set1_epi8(15);
    size_t i = 0;
    for (; i + 16 <= n; i += 16) {
        __m128i y = _mm_loadu_si128((const __m128i *)(ys + i)), x = _mm_loadu_si128((const __m128i *)(xs + i));
        __m128i p = _mm_shuffle_epi8(l, _mm_and_si128(y, mask));
        __m128i q = _mm_shuffle_epi8(h, _mm_and_si128(_mm_srli_epi64(y, 4), mask));
        _mm_storeu_si128((__m128i *)(xs + i), _mm_xor_si128(x, _mm_xor_si128(p, q)));
    }
    for (; i < n; i++) xs[i] ^= low[ys[i] & 15] ^ high[ys[i] >> 4];
}
#else
static void add_multiple(uint8_t *xs, const uint8_t *ys, size_t n, uint8_t factor) {
    for (size_t i = 0; i < n; i++) xs[i] ^= product(factor, ys[i]);
}
#endif
"""


def number(position, usual, kind=int):
    """The number at this position of the command line, or the usual one."""
    return kind(sys.argv[position]) if len(sys.argv) > position else usual


def program(crate="trace_cli"):
    """The built program of a crate."""
    path = os.path.join(TOP, "crates", crate, "out", crate)
    if not os.path.exists(path):
        sys.exit(f"{crate} is not built: run ./demo, or rt run in crates/{crate}")
    return path


def built(crate):
    """The program of a crate, which is built first."""
    folder = os.path.join(TOP, "crates", crate)
    given = os.path.join(folder, "stdin")
    with open(given if os.path.exists(given) else os.devnull) as file:
        subprocess.run(["rt", "run"], cwd=folder, stdin=file, stdout=subprocess.DEVNULL, stderr=subprocess.DEVNULL, check=True)
    return program(crate)


def compiled(folder, name, source, flags=()):
    """A program in C, compiled with -O2."""
    path, text = os.path.join(folder, name), os.path.join(folder, name + ".c")
    with open(text, "w") as file:
        file.write(source)
    subprocess.run(["cc", "-O2", *flags, "-o", path, text], check=True)
    return path


def put(folder, name, text):
    """Writes a file, from text or from bytes."""
    with open(os.path.join(folder, name), "wb") as file:
        file.write(text if isinstance(text, bytes) else text.encode())


def once(command, folder, wanted=0, environment=None):
    """The wall time of one run in seconds, and what it put out; any status but the wanted one ends the script."""
    began = time.perf_counter()
    done = subprocess.run(command, cwd=folder, env=environment, capture_output=True)
    took = time.perf_counter() - began
    if done.returncode != wanted:
        sys.exit(f"{' '.join(command)} ended with {done.returncode}: {done.stdout!r} {done.stderr!r}")
    return took, done.stdout.decode()


def memory(command, folder, wanted=0, environment=None):
    """The most memory that one run takes, in megabytes, as GNU time says it."""
    done = subprocess.run(["/usr/bin/time", "-q", "-f", "%M", *command], cwd=folder, env=environment, stdout=subprocess.DEVNULL, stderr=subprocess.PIPE, text=True)
    if done.returncode != wanted:
        sys.exit(f"{' '.join(command)} ended with {done.returncode}: {done.stderr}")
    return int(done.stderr.split()[-1]) / 1024


def least(command, folder, runs, wanted=0, environment=None):
    """The least wall time of some runs in milliseconds, and the memory of one more in megabytes."""
    took = min(once(command, folder, wanted, environment)[0] for _ in range(runs))
    return took * 1000, memory(command, folder, wanted, environment)


def processor_time(command, line, folder=None):
    """The output and the processor time of a run with this line on its input, in this folder."""
    before = resource.getrusage(resource.RUSAGE_CHILDREN)
    out = subprocess.run(command, input=line, cwd=folder, capture_output=True, text=True, check=True).stdout
    after = resource.getrusage(resource.RUSAGE_CHILDREN)
    return out, (after.ru_utime - before.ru_utime) + (after.ru_stime - before.ru_stime)


def in_turn(commands, job, seconds, rounds=4):
    """How many rounds of a job take the first command so many seconds, and the least processor time of each command over five
    turns. Each command reads the job and the rounds from its input; all have to print the same checksum."""
    taken = 0.0
    while taken < seconds and rounds < 2**31:
        rounds *= 2 if taken < seconds / 20 else max(2, int(seconds / taken) + 1)
        taken = processor_time(commands[0], f"{job} {rounds}\n")[1]
    fewest, sums = [None] * len(commands), set()
    for _ in range(5):
        for place, command in enumerate(commands):
            out, took = processor_time(command, f"{job} {rounds}\n")
            sums.add(out)
            fewest[place] = took if fewest[place] is None else min(fewest[place], took)
    if len(sums) != 1:
        sys.exit(f"the checksums of {job} {rounds} differ")
    return rounds, fewest

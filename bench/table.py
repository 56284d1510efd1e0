#!/usr/bin/env python3
"""Formats the output of bench/run.sh and bench/answers.sh as a table.

table.py PRINTED writes docs/MEASURED.md to standard output: the machine, the versions and the date,
and the figures of this program, of plain C and of each measured peer for loads, first answers,
answers in a batch and in ping-pong, and memory. The peer of gimli is the program in
GIMLI_ADDR2LINE. GIMLI_VERSION is its version, by default what its option --version prints. The
ratio after a figure of another column is the factor by which this program is better: faster, or
with less memory. The sections of the present docs/MEASURED.md follow the table. They are written by
hand.
"""
import datetime
import os
import re
import subprocess
import sys
import textwrap
from pathlib import Path

OURS = "addr2line_live"
PAGE = Path(__file__).resolve().parent.parent / "docs/MEASURED.md"
# What the columns of bench/run.sh are, each in one sentence.
COLUMNS = {
    "plain C": "Plain C is a program of this repository (`bench/*.c`, `bench/*.cpp`) that makes"
    " the same checks, stores the same data and gives the same replies in the fastest way that we"
    " know.",
    "earlier plain C": "Earlier plain C (`bench/earlier`) makes the same checks and stores the same"
    " data, without the tables for lookups, in a simpler and slower way.",
    "huge pages": "Huge pages is addr2line_live with huge pages for its memory"
    " (`GLIBC_TUNABLES=glibc.malloc.hugetlb=1`).",
}
NAMES = "|".join(COLUMNS)
FIGURES = re.compile(
    r"(?P<what>.+?):? +(?P<ours>[\d.]+)(?P<unit> ms| MiB|)"
    rf"(?P<others>(?:, (?:{NAMES}) +[\d.]+(?: ms| MiB|))+)(?:, ratio .*)?"
)
OTHER = re.compile(rf"({NAMES}) +([\d.]+)")
ANSWERS = re.compile(
    r"  (?P<program>.*?) {2,}(?P<rate>\d+) (?P<what>answers a second(?: of CPU time)?)"
    r"(?:, [\d.]+ reads and writes an answer)?"
    r"(?:, first answer after (?P<first>\d+) ms)?(?:, peak (?P<peak>\d+) MiB)?"
)
HEADING = re.compile(r"(?P<object>\w+), (?P<how>batch|pingpong|file)(?P<options>, .*)?")
AGAIN = "sixteen addresses again and again"
WAYS = {
    "batch": "a batch over a pipe",
    "pingpong": "ping-pong",
    "file": "a batch from a file to a file",
}


def column(program):
    """Returns the program of a line of answers, or None for a variant that the table omits."""
    name = re.sub(r", (spread|fewer)$", "", program)
    if name.startswith(OURS):
        return OURS if name == f"{OURS} --cache 1024" else None
    return name


def again(program):
    """Returns whether a line of answers is for the few addresses that are looked up repeatedly."""
    return program == f"{OURS}, sixteen addresses"


def rows(lines):
    """Returns the figure of each program for each measurement, with its unit and whether more is
    better."""
    table = {}

    def put(what, unit, better, program, figure):
        number = float(figure) if "." in figure else int(figure)
        table.setdefault((what, unit, better), {}).setdefault(program, number)

    asked = ""
    for line in lines:
        heading, answers, figures = (
            HEADING.fullmatch(line), ANSWERS.match(line), FIGURES.fullmatch(line)
        )
        if heading:
            options = f", `{heading['options'][2:]}`" if heading["options"] else ""
            asked = f"{heading['object']}, {WAYS[heading['how']]}{options}"
        if figures:
            what = re.sub("^memory for ", "memory, ", figures["what"])
            better = "more" if " a second: " in what else "less"
            for program, figure in [(OURS, figures["ours"]), *OTHER.findall(figures["others"])]:
                put(what, figures["unit"].strip(), better, program, figure)
        if answers and again(answers["program"]):
            what = f"{answers['what']}, {AGAIN}: {asked}"
            put(what, "", "more", OURS, answers["rate"])
        if answers and column(answers["program"]):
            program = column(answers["program"])
            put(f"{answers['what']}: {asked}", "", "more", program, answers["rate"])
            if answers["first"]:
                put(f"first answer: {asked}", "ms", "less", program, answers["first"])
            if answers["peak"]:
                put(f"memory: {asked}", "MiB", "less", program, answers["peak"])
    return table


def in_order(table):
    """Returns the measurements, with memory before the addresses that are looked up repeatedly."""
    rows = list(table.items())
    for number in range(1, len(rows)):
        if rows[number][0][0].startswith("memory: ") and AGAIN in rows[number - 1][0][0]:
            rows[number - 1], rows[number] = rows[number], rows[number - 1]
    return rows


def cell(figures, program, unit, better):
    """Formats a figure, and the factor by which this program is better."""
    if program not in figures:
        return ""
    figure, ours = figures[program], figures.get(OURS)
    text = f"{figure:,}{' ' + unit if unit else ''}"
    if program == OURS or not figure or not ours:
        return text
    ratio = ours / figure if better == "more" else figure / ours
    return f"{text} (×{ratio:,.0f})" if ratio >= 100 else f"{text} (×{ratio:.3g})"


def said(*command):
    """Returns the first line with a digit that a command prints, or None if it is not installed."""
    try:
        done = subprocess.run(command, stdout=subprocess.PIPE, stderr=subprocess.STDOUT, text=True)
        lines = (line.strip() for line in done.stdout.splitlines() if re.search(r"\d", line))
        return next(lines, None)
    except OSError:
        return None


def machine():
    """Returns the processor, the number of processors, the memory and the kernel."""
    cpu_info = open("/proc/cpuinfo").read()
    model = re.search(r"^model name\s*: (.*)", cpu_info, re.MULTILINE)
    name = model[1] if model else "an unknown processor"
    memory = int(re.search(r"MemTotal: +(\d+)", open("/proc/meminfo").read())[1]) >> 20
    kernel = os.uname().release.split("-")[0]
    return f"{os.cpu_count()} × {name}, {memory} GiB, Linux {kernel}"


def versions():
    """Returns the version lines of the programs that are installed."""
    programs = ["gcc", "llvm-symbolizer", "eu-addr2line", "addr2line"]
    found = [said("rt", "version"), *(said(program, "--version") for program in programs)]
    path = os.environ.get("GIMLI_ADDR2LINE")
    gimli = path and (os.environ.get("GIMLI_VERSION") or said(path, "--version"))
    return [version for version in [*found, gimli and f"addr2line of gimli: {gimli}"] if version]


def explanation(programs):
    """Returns the lines that say what the columns of these programs are."""
    sentences = [
        "The ratio after a figure of another column is the factor by which addr2line_live is"
        " better. Below 1, it is worse.",
        *(sentence for name, sentence in COLUMNS.items() if name in programs),
        "The other columns are other symbolizers. They load nothing before the first question;"
        " addr2line_live has then read and validated the whole object. Slow symbolizers are asked"
        " fewer addresses, see `bench/answers.sh`.",
        "[MEASURED-RUNS.md](MEASURED-RUNS.md) describes the conditions and how far runs differ.",
    ]
    return textwrap.wrap(" ".join(sentences), 100, break_on_hyphens=False)


def sections():
    """Returns the sections of the present page, from the first heading on."""
    _, heading, text = PAGE.read_text().partition("\n## ")
    return heading + text


def main():
    with open(sys.argv[1]) as printed:
        table = rows(printed.read().splitlines())
    if not table:
        raise SystemExit(f"{sys.argv[1]} has no figures")
    programs = list(dict.fromkeys(program for figures in table.values() for program in figures))
    print("# Measured\n")
    print(f"Written by `make bench` on {datetime.date.today()},\non {machine()}.\n\nVersions:\n")
    print(*(f"- {version}" for version in versions()), sep="\n")
    print()
    print(*explanation(programs), sep="\n")
    print()
    print(f"| | {' | '.join(programs)} |\n|---|{'---|' * len(programs)}")
    for (what, unit, better), figures in in_order(table):
        cells = (cell(figures, program, unit, better) for program in programs)
        print(f"| {what} | {' | '.join(cells)} |")
    print(sections(), end="")


if __name__ == "__main__":
    main()

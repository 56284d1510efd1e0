#!/usr/bin/env python3
"""Compares the documents with the sources of the program.

- The manual page must explain each option, each refusal of a line, a load, an unload or a move, and
  each section and cause of a malformed object. It must not explain a cause that does not exist, and
  groff must format it without a warning.
- Each cause must have a doc comment in the source.
- The README must name each option and command.
- The program, the manual page and the changelog must name the version in VERSION.
- The completion for bash must have the options of the manual page, and no others.
- Each definition that docs/ARCHITECTURE.md names with its file, each `make` target that a document
  names, and each name with an underscore, call and `Type::name` that a document has in backticks,
  must exist.
- Each line of an example in docs/LIBRARY.md must be in the source that the example names.
"""
import re
import subprocess
import sys
from pathlib import Path

TOP = Path(__file__).resolve().parent.parent
PAGE = TOP / "addr2line_live.1"
README = TOP / "README.md"
LIBRARY = TOP / "docs/LIBRARY.md"
COMPLETION = TOP / "completions/addr2line_live.bash"
# ARCHITECTURE.md names about seventy. Far fewer mean that its form has changed, so that nothing is
# checked.
LEAST_DEFINITIONS = 50
LEAST_REFUSALS = 16
# A cause is explained in at least this number of words.
LEAST_WORDS = 3
LEAST_EXAMPLES = 4
# Names that documents use and no source has: a field of the ELF header.
OTHER_NAMES = {"e_machine"}
# Functions that only documents have: the count of binary digits, in bounds.
OTHER_CALLS = {"bits"}


def source(crate, file):
    return (TOP / "crates" / crate / "src" / file).read_text()


def part(title):
    """Returns the text of a section of the manual page."""
    pattern = rf'^\.SH "?{title}"?\n(.*?)(?=^\.SH|\Z)'
    return re.search(pattern, PAGE.read_text(), re.DOTALL | re.MULTILINE)[1]


def entries(text):
    """Returns the words that entries of the manual page explain, each with its explanation."""
    found = {}
    entry = re.compile(r"^\.TP\n(.*)\n((?:(?!\.TP|\.S[HS]).*\n)*)", re.MULTILINE)
    for tag, body in entry.findall(text):
        plain = re.sub(r"\\f[A-Z]|^\.[BIR]+ ", "", tag).replace("\\", "").replace('"', "")
        for word in re.findall(r"[a-z][a-z-]*", plain)[:1]:
            found[word] = found.get(word, "") + body
    return found


def variants(text, name):
    """Returns the variants of an enum in a source, each with its doc comment."""
    body = re.search(rf"^pub enum {name} {{\n(.*?)^}}", text, re.DOTALL | re.MULTILINE)[1]
    variant = re.compile(r"((?:^ +///.*\n)*)^ +([A-Z]\w*)(?: = \d+)?,$", re.MULTILINE)
    return {name: comment.replace("///", "") for comment, name in variant.findall(body)}


def causes():
    """Yields faults in the causes and sections of malformed objects."""
    text = source("dwarf_bytes", "words.rt")
    words = dict(re.findall(r'Cause::(\w+) => "([a-z-]+)"', text))
    comments = variants(source("dwarf_bytes", "fault.rt"), "Cause")
    for name in sorted(words.keys() | comments.keys()):
        if name not in words:
            yield f"dwarf_bytes: Cause::{name} has no word"
        if len(comments.get(name, "").split()) < LEAST_WORDS:
            yield f"fault.rt: Cause::{name} is not explained"
    explained = entries(part("CAUSES"))
    for cause in dict.fromkeys(words.values()):
        if len(explained.get(cause, "").split()) < LEAST_WORDS:
            yield f"{PAGE.name}: the cause {cause} is not explained"
    for cause in explained.keys() - words.values():
        yield f"{PAGE.name}: {cause} is no cause"
    for section in re.findall(r'Section::\w+ => "(\S+?)"', text):
        if section not in part("CAUSES"):
            yield f"{PAGE.name}: the section {section} is not named"


def refusals():
    """Yields faults in the refusals of lines, loads, unloads and moves."""
    faults = source("command_loop", "commands.rt") + source("module_map", "faults.rt")
    faults += source("io_streams", "faults.rt")
    words = re.findall(r'(?:BadLine|FetchFault|MapFault)::\w+(?:\(_\))? => "([a-z-]+)"', faults)
    explained = entries(part("REFUSALS"))
    if len(words) < LEAST_REFUSALS:
        yield f"only {len(words)} words of refusals are found in the sources"
    for word in dict.fromkeys(words):
        if word not in explained:
            yield f"{PAGE.name}: the refusal {word} is not explained"


def options_and_commands():
    """Yields faults in the options and commands of the manual page and the README."""
    readme, command = README.read_text(), source("command_line", "command.rt")
    flags = {name: letter for letter, name in re.findall(r"'(\w)',\s+\"([a-z-]+)\"", command)}
    named = re.findall(r"(?:\.short\('(\w)'\)\s+)?\.long\(\"([a-z-]+)\"\)", command)
    for option, letter in {**flags, **{name: letter for letter, name in named}}.items():
        if f"--{option}" not in part("OPTIONS").replace("\\", ""):
            yield f"{PAGE.name}: the option --{option} is not explained"
        if f"--{option}" not in readme and not (letter and f"`-{letter}" in readme):
            yield f"{README.name}: the option --{option} is not named"
    for word in re.findall(r'word == b"(\w+)"', source("command_loop", "commands.rt")):
        if word not in entries(part("COMMANDS")):
            yield f"{PAGE.name}: the command {word} is not explained"
        if f"`{word}" not in readme:
            yield f"{README.name}: the command {word} is not named"


def completions():
    """Yields the options that only one of the completion for bash and the manual page has."""
    words = re.search(r"_options='([^']*)'", COMPLETION.read_text())[1].split()
    tags = " ".join(re.findall(r"^\.TP\n(.*)\n", part("OPTIONS"), re.MULTILINE))
    explained = re.findall(r"(?<!\w)--?[a-zA-Z][a-z-]*", re.sub(r"\\f[A-Z]|\\", "", tags))
    for option in sorted(set(words) ^ set(explained)):
        yield f"{COMPLETION.name}: the option {option} is only here or only in {PAGE.name}"


def named_definitions(text):
    """Yields each crate, file and word of specs/ that a text names, with `crate/File` before or
    after the words."""
    words = r"((?:`[A-Za-z_]\w*`(?:, | and ))*`[A-Za-z_]\w*`)"
    file = r"`(\w+)/(\w+)`"
    for crate, name, found in re.findall(rf"{file} {words}", text):
        yield from ((crate, name, word) for word in re.findall(r"`(\w+)`", found))
    for found, crate, name in re.findall(rf"{words} (?:\(|in |of |by ){file}", text):
        yield from ((crate, name, word) for word in re.findall(r"`(\w+)`", found))


def definitions():
    """Yields the missing definitions that docs/ARCHITECTURE.md names as `crate/File` `word`."""
    text = (TOP / "docs/ARCHITECTURE.md").read_text()
    named = set(named_definitions(text))
    if len(named) < LEAST_DEFINITIONS:
        yield f"ARCHITECTURE.md: only {len(named)} definitions are named as `crate/File` `word`"
    for crate, name, word in sorted(named):
        file = TOP / "crates" / crate / "specs" / f"{name}.antt"
        defined = rf"^\s*(?:abbrev |unfoldable )?(?:pub )?(?:record |data )?{word} [:({{]"
        if not file.exists() or not re.search(defined, file.read_text(), re.MULTILINE):
            yield f"ARCHITECTURE.md: {word} is not in {crate}/{name}"


def documents():
    """Returns the documents, except the changelog, which may name what no longer exists."""
    pages = sorted((TOP / "docs").glob("*.md"))
    return [README, TOP / "CONTRIBUTING.md", TOP / "SECURITY.md", *pages]


def sources():
    """Yields the path and the text of each source."""
    for folder in ("crates", "tools", "bench", "edits"):
        for file in (TOP / folder).rglob("*"):
            parts = file.relative_to(TOP).parts
            if "out" not in parts and "tests" not in parts and file.is_file():
                yield parts, file.read_text(errors="replace")


def source_names():
    """Returns the words of the sources with the names of their files and folders, the words before
    parentheses, and the names of functions."""
    words, calls, functions = set(OTHER_NAMES), set(OTHER_CALLS), set()
    for parts, text in sources():
        words.update(parts, [parts[-1].split(".")[0]], re.findall(r"\w+", text))
        calls.update(re.findall(r"(\w+)\(", text))
        functions.update(re.findall(r"\b(?:fn|def|const) (\w+)|^    ([A-Z]\w*)\b", text, re.M))
    functions = {name for pair in functions for name in pair}
    return words, calls | functions, functions


def names():
    """Yields what documents have in backticks and no source has: names with underscores, calls, and
    functions, constants and variants of types, such as `Cause::word`."""
    words, calls, functions = source_names()
    for document in documents():
        text = re.sub(r"^```.*?^```$", "", document.read_text(), flags=re.DOTALL | re.MULTILINE)
        code = " ".join(re.findall(r"`([^`]+)`", text))
        named = {name: words for name in re.findall(r"\b[a-z][a-z0-9]*(?:_[a-z0-9]+)+\b", code)}
        named.update((name, calls) for name in re.findall(r"\b([a-z]\w+)\(", code))
        named.update((name, functions) for name in re.findall(r"\b[A-Z]\w+::(\w*[a-z]\w*)", code))
        for name, sources in named.items():
            if name not in sources:
                yield f"{document.name}: no source has the name {name}"


def paths():
    """Yields the paths in backticks that do not exist. A path with capitals stands for many."""
    named = re.compile(r"`((?:crates|edits|tools|bench|docs)/[a-z0-9_./-]+)`")
    for document in documents():
        for path in named.findall(document.read_text()):
            if not (TOP / path).exists():
                yield f"{document.name}: there is no {path}"


def targets():
    """Yields the missing targets of make that documents name."""
    found = set(re.findall(r"^([a-z-]+):", (TOP / "Makefile").read_text(), re.MULTILINE))
    named = re.compile(r"\bmake ([a-z][a-z-]+)(?=[` ]*(?:[A-Z]+=|`|$| {2,}))", re.MULTILINE)
    for document in documents():
        for target in named.findall(document.read_text()):
            if target not in found:
                yield f"{document.name}: there is no make {target}"


def examples():
    """Yields the first wrong line of each example in docs/LIBRARY.md. The first line of an example
    names a source. The source must have the other lines in the same order, and may have more."""
    blocks = re.findall(r"^```\w*\n(.*?)^```$", LIBRARY.read_text(), re.DOTALL | re.MULTILINE)
    if len(blocks) < LEAST_EXAMPLES:
        yield f"{LIBRARY.name}: only {len(blocks)} examples are found"
    for block in blocks:
        first, *lines = block.splitlines()
        named = re.fullmatch(r"// (crates/[\w/]+\.rt)", first)
        if not named or not (TOP / named[1]).exists():
            yield f"{LIBRARY.name}: an example starts with {first!r}, which names no source"
            continue
        left = iter([line.strip() for line in (TOP / named[1]).read_text().splitlines()])
        missing = [line for line in lines if line.strip() and line.strip() not in left]
        if missing:
            yield f"{LIBRARY.name}: {missing[0].strip()!r} is not at this position of {named[1]}"


def versions():
    """Yields faults in the version of the program, the manual page and the changelog."""
    text = (TOP / "VERSION").read_text()
    version = text.removesuffix("\n")
    if not re.fullmatch(r"\d+\.\d+\.\d+\n", text):
        yield "VERSION: it is not one line with a version of three numbers"
    forms = {
        TOP / "crates/command_line/src/help.rt": r'VERSION: &str = "(\S+)"',
        PAGE: r'^\.TH \S+ 1 "[\d-]+" "addr2line_live (\S+)"',
        TOP / "CHANGELOG.md": r"^(?:## |The next version is )(\d+\.\d+\.\d+)\b",
    }
    for document, form in forms.items():
        named = re.search(form, document.read_text(), re.MULTILINE)
        if not named or named[1] != version:
            yield f"{document.name}: its version is not {version}"


def formatting():
    """Yields the warnings of groff."""
    done = subprocess.run(["groff", "-man", "-Tutf8", "-ww", PAGE], capture_output=True, text=True)
    yield from done.stderr.splitlines()


def main():
    checks = (causes, refusals, options_and_commands, completions, versions, definitions, names,
              paths, targets, examples, formatting)
    found = [fault for check in checks for fault in check()]
    print(*found, sep="\n", end="\n" if found else "")
    print(f"check-docs: {len(found)} faults")
    sys.exit(bool(found))


if __name__ == "__main__":
    main()

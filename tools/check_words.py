#!/usr/bin/env python3
"""Counts phrases that the documents and comments avoid, per 1,000 words.

Usage: tools/check_words.py [--list] [--quiet] [--most NUMBER] PATH..

A path is a file or a folder. In .rt, .antt, .py and .sh files only comment lines are read. In .md
files, code in backticks is skipped. --list prints each line with such a phrase. --quiet prints only
the paths that have too many. The exit status is 1 if a path has more than NUMBER of them per 1,000
words (2 if not given).
"""

import argparse
import pathlib
import re
import sys

# Phrases of a private vocabulary. The comments list the usual words to write instead.
PHRASES = [
    r'(is|are|was|were) told', r'tells?', r'told',        # returns, reports, has
    r'stands?', r'stood', r'standing',                    # is, is at offset
    r'behind', r'in front of',                            # after, before
    r'so many', r'how many',                              # n, the number of
    r'of which', r'those of',                             # two sentences
    r'what is (kept|left|neither|known|read|given)',      # the rest, the remaining bytes
    r'(is|are) kept', r'keeps',                           # stored, cached
    r'wants? of', r'wanting',                             # out of memory
    r'spell(s|ed|ing|ings)?',                             # encode
    r'judg(e|es|ed|ing)',                                 # validate, check
    r'(by )?halving', r'by digits',                       # binary search, radix sort
    r'by chance', r'hostile', r'headline',                # random, adversarial, main theorem
    r'the gate', r'edits? that must fail', r'planted',    # CI, must-fail edit, mutant
    r'plain reader', r'second reader',                    # reference implementation
    r'outwards', r'hops', r'insides',                     # to the parent, references followed
    r'beside', r'end to end', r'read again',              # next to, contiguous, re-read
]
PATTERN = re.compile(r'\b(?:' + '|'.join(PHRASES) + r')\b', re.IGNORECASE)
COMMENTS = {'.rt': '//', '.antt': '--', '.py': '#', '.sh': '#'}
CODE = re.compile(r'```.*?```|`[^`]+`', re.DOTALL)


def without_code(text):
    """Returns the text of a document with `..` for code in backticks. Line breaks are retained."""
    return CODE.sub(lambda code: '`..`' + '\n' * code[0].count('\n'), text)


def prose_lines(path):
    """Yields the lines of a file that are prose, with their numbers."""
    mark = COMMENTS.get(path.suffix)
    text = path.read_text(errors='replace')
    if path.suffix == '.md':
        text = without_code(text)
    for number, line in enumerate(text.splitlines(), 1):
        text = line.strip()
        if mark is None or text.startswith(mark):
            yield number, text


def files_of(path):
    """Returns the files of a path: itself, or all files below it with prose or comments."""
    if path.is_file():
        return [path]
    kinds = {*COMMENTS, '.md', '.1'}
    return sorted(f for f in path.rglob('*') if f.suffix in kinds and 'out' not in f.parts)


def main():
    """Prints the count of each path."""
    parser = argparse.ArgumentParser(description=__doc__.splitlines()[0])
    parser.add_argument('--list', action='store_true')
    parser.add_argument('--quiet', action='store_true')
    parser.add_argument('--most', type=float, default=2.0)
    parser.add_argument('paths', nargs='+', type=pathlib.Path)
    options = parser.parse_args()
    failed = False
    for path in options.paths:
        words = found = 0
        for file in files_of(path):
            for number, text in prose_lines(file):
                words += len(text.split())
                here = PATTERN.findall(text)
                found += len(here)
                if here and options.list:
                    print(f'{file}:{number}: {text}')
        rate = 1000 * found / max(words, 1)
        failed |= rate > options.most
        if rate > options.most or not options.quiet:
            print(f'{path}: {found} in {words} words, {rate:.1f} per 1,000')
    return 1 if failed else 0


if __name__ == '__main__':
    sys.exit(main())

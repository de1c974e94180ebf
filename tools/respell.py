#!/usr/bin/env python3
"""Brings the repository's own definitions and lemmas to snake case, once, after port.py.

usage: tools/respell.py [--check]      at the top of the repository; --check writes nothing

What turns: each word of specs/ and proofs/, and of the clauses and ghost items of src/, that is in lower
camel case (howMany -> how_many), and each of the names with dashes below (count-more -> count_more).
Words that the language makes of the source (goals, steps, variants) and words of the library stay.
In README.md and docs/ a word turns inside a code span; in an edit anywhere. Strings, comments and Rust
code stay. Names that fall together are listed, and the script then ends with status 1. A second run would
turn names that the first one made: run it once.
"""

import collections
import glob
import os
import re
import sys

WORD = re.compile(r'[^\s(){}.;,:@"«»`]+')
STAY = {"is_prop→PathP"}
MADE = re.compile(r"(?:in|not|overflow|then|else|if|loop)-(?:\w+-)*[A-Z]")
SPECIAL = {
    "getD-mapped": "get_or_mapped",
    "getD-ring": "get_or_ring",
    "getD-zeros": "get_or_zeros",
    "wonE": "won_e",
    "readOff": "read_off",
    # a lemma or a field that would have its definition's name
    "cards-fit": "cards_fit_lem",
    "diff-rest": "diff_rest_lem",
    "entry-if": "entry_if_lem",
    "epoch-of": "epoch_of_lem",
    "epoch-same": "epoch_same_lem",
    "header-below": "header_below_lem",
    "largest-vote": "largest_vote_lem",
    "last-header": "last_header_lem",
    "left-first": "left_first_lem",
    "look-part": "look_part_lem",
    "machines-fit": "machines_fit_lem",
    "opened-card": "opened_card_lem",
    "same-lane": "same_lane_lem",
    "slot-fits": "slot_fits_lem",
    "sound-row": "sound_row_lem",
    "size-of": "size_of_lem",
    "same_bytes": "same_bytes_lem",
    "entries_fit": "entries_fit_lem",
}


def dashed():
    here = os.path.dirname(os.path.abspath(__file__))
    with open(os.path.join(here, "respell.names"), encoding="utf-8") as f:
        return set(f.read().split())


DASHED = dashed()


def snake(word):
    word = re.sub(r"([a-z0-9])([A-Z])", r"\1_\2", word)
    word = re.sub(r"([A-Z])([A-Z][a-z])", r"\1_\2", word)
    return word.lower().replace("-", "_")


def new(word):
    bare = word.rstrip("'")
    tail = word[len(bare) :]
    if bare in STAY or MADE.match(bare):
        return word
    if bare in SPECIAL:  # before the rules below
        return SPECIAL[bare] + tail
    if bare in DASHED or re.fullmatch(r"[a-z]\w*[A-Z]\w*", bare):
        return snake(bare) + tail
    return word


QUIET_ANTT = re.compile(r"(?m)(?:^|(?<=\s))--.*$")
QUIET_RT = re.compile(r'//[^\n]*|"(?:\\.|[^"\\])*"')
SPAN = re.compile(r"`[^`\n]+`|(?ms:^```.*?^```$)")


def outside(quiet, text, turn):
    out, at = [], 0
    for m in quiet.finditer(text):
        out += [turn(text[at : m.start()]), m[0]]
        at = m.end()
    return "".join(out) + turn(text[at:])


def turned(path, text, seen):
    def word(m):
        to = new(m[0])
        if to != m[0]:
            seen[m[0]] += 1
        return to

    def words(t):
        return WORD.sub(word, t)

    if path.endswith(".antt"):
        return outside(QUIET_ANTT, text, words)
    if path.endswith(".rt"):
        return outside(QUIET_RT, text, words)
    if path.endswith(".md"):
        return SPAN.sub(lambda m: words(m[0]), text)
    return words(text)  # an edit


def files():
    for kind in ("specs/**/*.antt", "proofs/**/*.antt", "src/**/*.rt", "must-fail/*.edit"):
        yield from sorted(glob.glob(f"crates/*/{kind}", recursive=True))
    yield from ["README.md"] + sorted(glob.glob("docs/*.md"))


def main():
    check = "--check" in sys.argv[1:]
    seen, texts = collections.Counter(), {}
    for path in files():
        with open(path, encoding="utf-8") as f:
            text = f.read()
        texts[path] = (text, turned(path, text, seen))
    into = collections.defaultdict(set)
    for old in seen:
        into[new(old)].add(old)
    bad = 0
    for to, olds in sorted(into.items()):
        if len(olds) > 1:
            print(f"fall together: {', '.join(sorted(olds))} -> {to}")
            bad += 1
    for path, (text, _) in texts.items():
        if path.endswith(".antt"):
            have = set(WORD.findall(QUIET_ANTT.sub(" ", text)))
            for old in sorted(have):
                if new(old) != old and new(old) in have:
                    print(f"look: {path}: {old} becomes {new(old)}, a word of this file")
    if not check:
        for path, (text, to) in texts.items():
            if to != text:
                with open(path, "w", encoding="utf-8") as f:
                    f.write(to)
    print(f"{len(seen)} names, {sum(seen.values())} places")
    return 1 if bad else 0


sys.exit(main())

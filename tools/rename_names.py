#!/usr/bin/env python3
"""Brings the names that this repository defines in specs/ and proofs/ to the spelling of the library.

usage: python3 tools/rename_names.py [--list]      at the top of the repository, once, after the toolchain's own port script

A word, a lemma, a field or a constructor is in snake case; a dash stays only where it joins two defined names. A type or a fact keeps its
capital. A lemma that would fall together with a word gets `_lem`. Rust names, strings, inputs and outputs keep theirs. With --list it
prints the table of names and writes nothing.
"""
import collections
import glob
import os
import re
import subprocess
import sys

TOKEN = re.compile(r"[^\s(){}\[\],;.:→×≡λ·`\"«»@]+")
LEMMA_FILES = [p for p in glob.glob("crates/*/specs/**/*.antt", recursive=True) + glob.glob("crates/*/proofs/**/*.antt", recursive=True)]


def is_walk(path):
    """A proof file of one function: its names are those of the toolchain and its own."""
    return os.path.basename(path) in ("Proof.antt", "Invariants.antt", "Answers.antt")


def defined(paths):
    """Names with the kinds of their definitions: 'type' for records, data and facts, else 'word' or 'field'."""
    found = collections.defaultdict(set)
    for p in paths:
        indent_of_record = None
        for line in open(p, encoding="utf-8"):
            if line.lstrip().startswith("--"):
                continue
            m = re.match(r"^(\s*)((?:abbrev |unfoldable |pub )*)(record|data) (\S+)", line)
            if m:
                found[m.group(4)].add("type")
                indent_of_record = len(m.group(1))
                continue
            m = re.match(r"^(\s*)((?:abbrev |unfoldable |pub |axiom )*)([^\s(){}:=]+(?: [^\s(){}:=]+)*) : (.*)$", line)
            if not m or m.group(3).split()[0] in ("use", "let", "elim", "in", "λ", "module", "mod"):
                continue
            indent = len(m.group(1))
            if indent > 6 or (indent > 0 and len(m.group(3).split()) > 4):
                continue
            kind = "field" if indent_of_record is not None and indent > indent_of_record else "word"
            if kind == "word" and indent > 2:
                continue
            for n in m.group(3).split():
                found[n].add("type" if kind == "word" and re.search(r"(→|:) Type (0|\{?ℓ)|^Type 0", ": " + m.group(4).split("--")[0].rstrip()) and m.group(4).rstrip().endswith("Type 0") else kind)
            if indent == 0:
                indent_of_record = None
    return found


def std_words():
    """Words that the library's Prelude passes on: what a dash may join."""
    page = subprocess.run(["rt", "doc"], capture_output=True, text=True, check=True).stdout.strip()
    kit = os.path.dirname(page)
    words = set()
    with open(os.path.join(kit, "rattle/std/specs/Prelude.antt"), encoding="utf-8") as f:
        for part in re.findall(r"\{([^}]*)\}", f.read()):
            words.update(w.strip() for w in part.split(","))
    return words


def pieces(name):
    """The words of a name, by dashes and by humps; a run of capitals or a capital alone is a word of its own and keeps its case."""
    out = []
    for part in name.split("-"):
        part = re.sub(r"(?<=[a-z0-9])(?=[A-Z])", "\0", part)
        out.append(part.split("\0"))
    return out


def snake_part(humps, first):
    said = []
    for i, h in enumerate(humps):
        # a hump in camel case is lower from now on; one that stands first, or is capitals alone, keeps them
        if i > 0 and len(h) > 1 and h[0].isupper() and not h.isupper():
            h = h[0].lower() + h[1:]
        said.append(h)
    return "_".join(said)


# the operations of a lattice, which are fields
OPERATIONS = {"meet", "join", "neg", "top", "bot", "size"}
# plain words that are also the name of something, and join nothing
PLAIN = {"max", "min", "not", "sum", "all", "out", "any", "one", "two", "end", "more", "most", "of", "none", "some", "code", "read", "in", "next", "part", "row", "round", "same", "first", "second", "steps", "step", "whole", "value", "values", "accepted", "find", "fold", "set", "map", "filter", "scan", "insert", "remove", "swap", "position", "pred", "true", "false", "share", "score", "up", "down", "bits", "bytes", "store", "form", "lattice", "model", "formula", "content", "reading"}


def table():
    found = defined([p for p in LEMMA_FILES if not is_walk(p)])
    std = std_words()
    first = {}
    for n in found:
        if n.startswith("+") or "◌" in n or "⇒" in n:
            continue
        first[n] = [snake_part(h, i == 0) for i, h in enumerate(pieces(n))]
    words = {"_".join(v) for n, v in first.items() if found[n] & {"word", "type"}} | std | OPERATIONS

    def joins(name):
        """Whether a dash may stand beside this part: a defined word, and no plain word of English that is one too."""
        return name in words and len(name) > 2 and name not in PLAIN

    new = {}
    for n, parts in first.items():
        if found[n] == {"type"} and "-" not in n and n[0].isupper():
            continue
        if len(parts) == 1:
            new[n] = parts[0]
            continue
        best = "_".join(parts)
        for k in range(1, len(parts)):
            left, right = "_".join(parts[:k]), "_".join(parts[k:])
            if joins(left) and joins(right):
                best = left + "-" + right
                break
        new[n] = best
    return found, {a: b for a, b in new.items() if a != b}



# Words whose new spelling another definition has already: the lemma is named apart.
BY_HAND = {
    "by_token": "by_token_lem", "codes-by": "codes_by_lem", "lattice-by": "lattice_by_lem", "lattice-of": "lattice_of_lem",
    "left-tokens": "left_tokens_lem", "meet-in": "meet_in_lem", "model_of": "model_of_lem", "no-refusal": "no_refusal_lem",
    "post-fixed-test": "post_fixed_test_lem", "read_one": "read_one_lem", "row_same": "row_same_lem", "row_within": "row_within_lem",
    "row_written": "row_written_lem", "simulation-test": "simulation_test_lem", "table-obeys": "table_obeys_lem",
    "whole_by": "whole_by_lem", "worked-entry": "worked_entry_lem", "decode-in": "decode_in_lem", "formula-in": "formula_in_lem",
    "from-models": "from_models_lem", "top-and-bottom": "top_and_bottom_lem", "first_below": "first_below_lem",
    "meet-of": "meet_of_lem", "join-of": "join_of_lem", "meets-and-joins": "meets_and_joins_lem", "too_short": "too_short_lem",
    "is-model": "is_model_lem", "join-code": "join_code_lem", "meet-code": "meet_code_lem", "part-at": "part_at_lem",
    "settled-round": "settled_round_lem", "from-formulas": "from_formulas_lem", "from-lattice": "from_lattice_lem",
    "lattice-form": "lattice_form_lem", "top-code": "top_code_lem", "settled-part": "settled_part_lem",
    # names of inner modules
    "meetBefore": "meet_before", "lookedAt": "looked_at", "roundOf": "round_of", "scoreIn": "score_in", "postFixedIn": "post_fixed_in",
    "post-fixed-in": "post_fixed_in_lem", "perCent-nearest-even": "per_cent_nearest_even", "perCent-most": "per_cent_most",
    "perCent-as-before": "per_cent_as_before", "allNext-preserves": "all_next_preserves", "someNext-preserves": "some_next_preserves",
    "withU16": "with_u16", "u16Then": "u16_then", "u16At": "u16_at",
}
# Constructors that are named as variants, and names that the library has too.
KEPT = {"FormulaValue", "PerCent", "TableBytes", "TableLength", "not-false"}


def turned(text, new, prose):
    """The text with each token of the table; in prose only what cannot be an English word: camel case, or a name in backticks."""
    def one(m):
        t = m.group(0)
        return new.get(t, t)
    if not prose:
        return TOKEN.sub(one, text)
    def some(m):
        t = m.group(0)
        if t in new and ("-" not in t or text[max(0, m.start() - 1)] == "`" or PROSE_LIST.match(text)):
            return new[t]
        return t
    return TOKEN.sub(some, text)


PROSE_LIST = re.compile(r"^\s*--   \S")


def turn_file(path, new):
    with open(path, encoding="utf-8") as f:
        lines = f.read().split("\n")
    said = []
    for line in lines:
        if path.endswith(".antt"):
            at = line.find("--") if re.match(r"\s*--(\s|$)", line) else -1
            code, rest = (line, "") if at < 0 else (line[:at], line[at:])
        elif path.endswith(".rt"):
            # Rust names are in snake case already: only dashes and camel case are turned here
            new = {a: b for a, b in new.items() if "-" in a or re.search(r"[a-z0-9][A-Z]", a)}
            m = re.search(r"(?:^|\s)//", line)
            code, rest = (line, "") if m is None else (line[: m.start()], line[m.start() :])
        else:
            code, rest = ("", line) if not re.match(r"(old|new): ", line) else (line, "")
        said.append(turned(code, new, False) + turned(rest, new, True))
    text = "\n".join(said)
    if text != "\n".join(lines):
        with open(path, "w", encoding="utf-8") as f:
            f.write(text)
        return True
    return False


def main():
    found, new = table()
    for n in KEPT:
        new.pop(n, None)
    new.update(BY_HAND)
    target = collections.defaultdict(list)
    for n in found:
        target[new.get(n, n)].append(n)
    together = {t: ns for t, ns in target.items() if len(ns) > 1}
    if "--list" in sys.argv:
        for t, ns in sorted(together.items()):
            print("together:", t, ns, [sorted(found[n]) for n in ns])
        for a, b in sorted(new.items()):
            print(a, b)
        return
    files = LEMMA_FILES + glob.glob("crates/*/src/**/*.rt", recursive=True) + glob.glob("crates/*/must-fail/*.edit")
    # a new name that a file has already, as a local or an import of another kind, would fall together with it
    for p in sorted(files):
        text = open(p, encoding="utf-8").read()
        tokens = set(TOKEN.findall(text))
        for t in sorted(tokens & set(new)):
            if new[t] in tokens and new[t] not in new:
                print(f"look: {p}: {t} becomes {new[t]}, which stands there already")
    turned_files = sum(turn_file(p, new) for p in sorted(files))
    print(f"rename: {len(new)} names, {turned_files} files")


main()

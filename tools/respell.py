#!/usr/bin/env python3
"""Brings the repository's own definitions and lemmas to the spelling of today's Rattle: words in snake case, types and modules in camel case.

usage: python3 tools/respell.py [--names]        at the top of the repository, once, after the kit's port.py

It finds each name that specs/ and proofs/ declare and that has a dash, or a capital behind a small first letter, and writes it with underscores,
wherever it stands as a whole word: in specs/, proofs/, must-fail/ and the sources' clauses. Names of src/ functions, strings, inputs and
outputs stay. What would fall together is in TOGETHER. --names prints the names and writes nothing.
"""

import os
import re
import sys

WORD = r"[^\s(){}\[\].;,@\"«»`]+"
# Names that would fall together with another name of the repository: the definition keeps the name, the lemma gets `_lem`.
TOGETHER = {
    "bad-byte": "bad_byte_lem",
    "by-digit": "by_digit_lem",
    "column-at": "column_read",
    "column-of": "column_of_lem",
    "first-row": "first_row_lem",
    "key-of": "key_of_lem",
    "keys-of": "keys_are",
    "last-of": "last_of_lem",
    "line-end": "line_end_lem",
    "readAt": "placed_at_read",
    "refused-text": "refused_text_lem",
    "same-list": "same_list_lem",
}
# Lemmas that port.py has respelled and that a definition falls together with, and the files that have them.
BEFORE = {
    "last_row": ("last_row_lem", "Following.antt Walking.antt Loops.antt walk/proofs/first/Proof.antt walk/proofs/write/Proof.antt misplaced_by_rows/Proof.antt"),
    "in_size": ("in_size_lem", "Headers.antt"),
}
# Names with a sign in them.
SIGNED = dict(it.split(":") for it in (
    "cornerList?:corner_list? startsFirst?:starts_first? at-point?:at_point? by-gap≤:by_gap≤ by-gap<:by_gap<"
    " +ℤ-left-comm:+ℤ_left_comm +ℤ-right-comm:+ℤ_right_comm +ℤ-swap:+ℤ_swap *ℤ-distr-l:*ℤ_distr_l *ℤ-distr-r:*ℤ_distr_r"
    " *ℤ-assoc:*ℤ_assoc *ℤ-left-comm:*ℤ_left_comm *ℤ-swap:*ℤ_swap"
).split())
# Names that are not declared but bound: by `as`, or as a parameter.
BOUND = (
    "coordinateOf gainOf lossOf movedOf naturalOf packedOf refusedOf cornerRoom missingRoom ordered-pairs corner-pairs corner-wide missing-wide"
    " on-a on-b on-p twice-area shared-left shared-right not-here not-8 not-9 not-10 below-a above-a"
).split()
# Declared by a proof file for a goal of its function: these follow what Rattle calls the goal.
GOAL = re.compile(r"tie\.|goal\.|statement\b")
SIGNATURE = re.compile(rf"^(\s*)((?:(?:pub|abbrev|unfoldable|private|mutual) )*)({WORD}(?: {WORD})*)(?: \{{ℓ\}})? :(?:\s|$)(.*)")
HEAD = re.compile(rf"^(\s*)(?:(?:pub|abbrev|unfoldable) )*(record|data|module|use|where|ruleset)\b")


def files(top):
    for crate in sorted(os.listdir(top)):
        for part in ("specs", "proofs", "src", "must-fail"):
            for folder, dirs, names in os.walk(os.path.join(top, crate, part)):
                dirs.sort()
                for name in sorted(names):
                    if name.endswith((".antt", ".rt", ".edit")):
                        yield os.path.join(folder, name)


def snake(name):
    name = name.replace("-", "_")
    return re.sub(r"(?<=[a-z0-9₀-₉])([A-Z])", lambda it: "_" + it[1].lower(), name)


def own(name):
    """Whether the name has an older spelling: a plain word of letters with dashes, or with capitals inside."""
    return bool(re.fullmatch(r"[a-zA-Zα-ω][\w'′₀-₉-]*", name)) and not name[0].isupper() and snake(name) != name


def declared(text):
    """The names that a file declares: of its top level and modules, and the fields of its records."""
    names, fields, record = set(), set(), None
    for line in text.split("\n"):
        if not line.strip() or line.strip().startswith("--"):
            continue
        indent = len(line) - len(line.lstrip())
        if record is not None and indent <= record:
            record = None
        head = HEAD.match(line)
        if head:
            if head[2] == "record":
                record = indent
            continue
        it = SIGNATURE.match(line)
        if not it:
            continue
        for name in it[3].split():
            if own(name) and not (GOAL.match(it[4]) or re.search(r"→ statement ", it[4])):
                (fields if record is not None else names).add(name)
    return names, fields


def main(argv):
    texts = {}
    for path in files("crates"):
        with open(path, encoding="utf-8", newline="") as it:
            texts[path] = it.read()
    names, fields = set(), set()
    for path, text in texts.items():
        if path.endswith(".antt"):
            n, f = declared(text)
            names |= n
            fields |= f
    new = {name: TOGETHER.get(name, snake(name)) for name in names | fields | set(BOUND)} | SIGNED
    if argv == ["--names"]:
        every = {}
        for name in sorted(names | fields):
            every.setdefault(new[name], []).append(name)
        words = set(re.findall(WORD, "\n".join(texts.values())))
        for to, olds in sorted(every.items()):
            fall = " FALLS TOGETHER" if len(olds) > 1 or to in words else ""
            print(to, *olds, *(f"(field)" for o in olds if o in fields), fall)
        return 0
    token = re.compile(rf"(\.?)({WORD})")
    for path, text in texts.items():
        of_a_function = path.endswith("Proof.antt")

        here = {old: to for old, (to, where) in BEFORE.items() if path.endswith(tuple(where.split()))}

        def turned(it):
            word = it[2]
            if word in here and not it[1]:
                return here[word]
            prime = re.fullmatch(r"(.*?)(['′]*)", word)
            base = prime[1]
            if word in new:
                base, end = word, ""
            elif base in new:
                end = prime[2]
            else:
                return it[0]
            if it[1] and of_a_function and base not in fields:
                return it[0]
            return it[1] + new[base] + end

        out = []
        for line in text.split("\n"):
            if path.endswith(".rt") and not re.search(r"ghost|requires|ensures|\{ .* \}$|^\s+[×(]|λ|≡", line):
                out.append(line)
            else:
                out.append(token.sub(turned, line))
        said = "\n".join(out)
        if said != text:
            with open(path, "w", encoding="utf-8", newline="") as it:
                it.write(said)
    # Today's kit has a library named csv.
    if os.path.isdir("crates/csv"):
        os.rename("crates/csv", "crates/csv_text")
        for path in ["crates.txt", *files("crates")]:
            with open(path, encoding="utf-8", newline="") as it:
                text = it.read()
            said = re.sub(r"\bcsv(?=::|:| |\.specs|\.proofs|$)(?! text)", "csv_text", text, flags=re.M)
            if said != text:
                with open(path, "w", encoding="utf-8", newline="") as it:
                    it.write(said)
    return 0


if __name__ == "__main__":
    raise SystemExit(main(sys.argv[1:]))

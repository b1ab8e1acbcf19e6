#!/usr/bin/env python3
"""respell: turns the repository's own words of specs/ and proofs/ to snake case, once, right after the kit's port.py.

usage: tools/respell.py [--look]     at the top; --look writes nothing and shows the names that would fall together
What turns is each definition, lemma, field and constructor that an .antt file of this repository declares, wherever it is named: in .antt files, in the
clauses of .rt files, in must-fail edits. Types and modules keep their capital, and Rattle's own names (goals, steps, fields of a walk) their dashes.
"""
# SPDX-License-Identifier: MIT
import collections
import glob
import re
import sys

WORD = re.compile(r"[^\s(){}.;,@\"«»\[\]|:λ↦]+")
TOP = re.compile(r"(?m)^ *(?:(?:abbrev|unfoldable) )*(?:pub )?([^\s:(){}]+)(?: \{[^}]*\})* :(.*)")
# A record or a data type, at the left edge or in a section, with its lines.
BLOCK = re.compile(r"(?m)^( *)(?:pub )?(?:record|data) [^\n]*(?:\n(?:\1[ \t]+[^\n]*|(?=\n)))*")
# What a law takes by a name of its own, and what stands for a name from elsewhere.
BOUND = re.compile(r"[({]([a-z][a-z0-9]*[A-Z][A-Za-z0-9]*) :|(?<= as )([a-z][^\s,;}]*)")
# What a proof names on its way turns where its file has no such word.
LET = re.compile(r"\blet ([a-z][^\s:(){}.]*) [:=]")
# What comes from another library is not ours.
FOREIGN = re.compile(r"(?m)^use ([\w.·+'-]+)\.\{([^}]*)\}")
MEMBER = re.compile(r"(?m)^\s+([^\s:(){}]+(?: [^\s:(){}]+)*) :")
USED = re.compile(r"(?m)^use ([\w.·+'-]+) as ([^\s]+)$")
# What Rattle makes of a function: names behind these stay.
MADE = re.compile(r"\.(Tie|Reads|Goals|Given|Statement|Met|Code|Proof)$|\.specs\.(contracts|declared)\.|^Prim|^logic|^borrow|^denote")
# Lemmas with the name of what they are about take an ending.
LEMMA = "_lem"
# Local lemmas that port.py gave the name that a definition takes here.
LOCAL = {
    "crates/program_salvage_lines/proofs/put_line/Proof.antt": ["after_first"],
    "crates/rooms_marks/proofs/Meaning.antt": ["all_once"],
    "crates/promises_orders/proofs/Times.antt": ["at_second"],
    "crates/promises/proofs/Told.antt": ["by_width"],
    "crates/c_answers/proofs/Taking.antt": ["field_told"],
    "crates/content_fields/proofs/Answers.antt": ["text_in"],
    "crates/packet_arrival/proofs/Readings.antt": ["too_long"],
}
# Lemmas beside a definition that port.py turned already.
BESIDE = """
    address-length agency-in answer-by as-end both-among channel-fields content-read count-in day-fault day-of day-to digit-of first-packet fixed-heading
    free-from free-room heading-kept identifier-day in-body in-channel in-command in-range is-code is-complete lacking-table laid-over number-of on-day
    parse-many part-of payload-at pen-onward resource-at resource-digit resource-part row-begins slow-answers stream-fields variant-tape
""".split()

# A definition beside a lemma with its name.
OTHERWISE = {"tooSmall": "small_room"}


def snake(name):
    parts = [re.sub(r"(?<=[a-z0-9])([A-Z])", lambda m: "_" + m[1].lower(), part) for part in name.split("-")]
    return "_".join(parts)


def read(path):
    with open(path, encoding="utf-8") as f:
        return f.read()


def declared(texts):
    """The repository's own words, those of them that are fields of a record, and those that only stand for another."""
    words, bound, fields = set(), set(), set()
    for path, text in texts.items():
        goals = {m[2] for m in USED.finditer(text) if re.search(r"\.(Tie|Goals|Given|Statement)$", m[1])}
        for m in TOP.finditer(text):
            kind = re.match(r"\s*(\w+)\.", m[2])
            if not (kind and kind[1] in goals) and not re.fullmatch(r"(?:invariant|decreases|returns)-?.*", m[1]):
                words.add(m[1])
        for m in BOUND.finditer(text):
            bound.add(m[1] or m[2])
        for block in BLOCK.finditer(text):
            rest = block[0].split("\n", 1)
            if len(rest) > 1:
                for m in MEMBER.finditer(rest[1]):
                    for name in m[1].split():
                        words.add(name)
                        fields.add(name)
    own = lambda n: n[0].islower() and ("-" in n or re.search("[A-Z]", n)) and not re.search("[◌→·*+]", n)
    return {n for n in words | bound if own(n)}, {n for n in fields if own(n)}, bound - words


def here(text, table):
    """The table for one file: without the names that it takes from another library, and with those that it names on its way."""
    seen = set(WORD.findall(text))
    foreign = {w.split(" as ")[0].strip() for m in FOREIGN.finditer(text) if not m[1].startswith("Rattle.") or ".std" in m[1] for w in m[2].split(",")}
    lets = {n: snake(n) for n in LET.findall(text) if "-" in n and snake(n) not in seen}
    return {n: new for n, new in {**lets, **table}.items() if n not in foreign}


def turned(text, table, fields):
    aliases = {m[2] for m in USED.finditer(text) if not MADE.search(m[1])}

    def one(m):
        word = m[0]
        if word not in table:
            return word
        if m.start() and text[m.start() - 1] == ".":
            before = re.search(r"([^\s(){};,]+)\.$", text[: m.start()])
            head = before[1] if before else ""
            if word not in fields and head not in aliases and not head.startswith("Rattle."):
                return word
        return table[word]

    return WORD.sub(one, text)


def quiet_comments(text, mark, turn):
    """Turns code and comments apart: a dash in a comment is prose, unless the file's code has the word."""
    used = set(WORD.findall("\n".join(re.sub(mark + r".*", "", l) for l in text.split("\n"))))
    held = {}

    def hide(m):
        spoken = re.sub(r"`[a-z]\w*[A-Z]\w*`", lambda w: snake(w[0]), m[0])
        words = WORD.sub(lambda w: "\0" + w[0].replace("-", "\1") if "-" in w[0] and w[0] not in used else w[0], spoken)
        return words.replace("\0", "\2")

    hidden = re.sub(r"(?m)(?:^|(?<=\s))" + mark + r".*$", hide, text)
    return turn(hidden).replace("\2", "").replace("\1", "-")


def rust(text, turn, names):
    """Clauses and ghost items turn; elsewhere a camel-case word can only be one of ours."""
    out = []
    for line in text.split("\n"):
        code = re.split(r"(?:^|\s)//", line)[0]
        if re.search(r"\b(?:ghost|requires|ensures|decreases|invariant)\b|[≡≤∷→λ×]", code):
            out.append(turn(line))
        else:
            out.append(WORD.sub(lambda m: snake(m[0]) if m[0] in names and "-" not in m[0] else m[0], line))
    return "\n".join(out)


def main():
    paths = sorted(glob.glob("crates/*/specs/**/*.antt", recursive=True) + glob.glob("crates/*/proofs/**/*.antt", recursive=True))
    texts = {p: read(p) for p in paths}
    names, fields, bound = declared(texts)
    taken = {snake(n) for n in names if "-" not in n}
    lemma = {n for n in names if "-" in n and n not in bound and (snake(n) in taken or n in BESIDE)}
    table = {n: OTHERWISE.get(n) or snake(n) + (LEMMA if n in lemma else "") for n in names}
    if "--look" in sys.argv:
        together = collections.defaultdict(set)
        for n, new in table.items():
            together[new].add(n)
        for new, olds in sorted(together.items()):
            if len(olds) > 1:
                print("two to one:", new, sorted(olds))
        clashes = collections.defaultdict(list)
        for p, t in texts.items():
            seen = set(WORD.findall(re.sub(r'(?m)^use [^\s{]+', '', t)))
            for n in seen & names:
                if table[n] in seen:
                    clashes[n].append(p)
        for n, where in sorted(clashes.items()):
            print("beside:", n, table[n], len(where), where[0])
        print(len(table), "names")
        return

    def turn(text):
        return turned(text, here(text, table), fields)

    for p, t in texts.items():
        new = t
        for word in LOCAL.get(p, []):
            if re.sub("_(.)", lambda m: m[1].upper(), word) not in t:
                continue  # this was done already
            new = WORD.sub(lambda m: word + LEMMA if m[0] == word and not re.search(r"\.$", new[: m.start()]) else m[0], new)
        new = quiet_comments(new, "--", turn)
        if new != t:
            open(p, "w", encoding="utf-8").write(new)
    for p in sorted(glob.glob("crates/*/src/**/*.rt", recursive=True)):
        t = read(p)
        new = rust(t, turn, names)
        if new != t:
            open(p, "w", encoding="utf-8").write(new)
    for p in sorted(glob.glob("crates/*/must-fail/*.edit")):
        t = read(p)
        new = "\n".join(turn(l) if re.match("(?:old|new|refused): ", l) else l for l in t.split("\n"))
        if new != t:
            open(p, "w", encoding="utf-8").write(new)


main()

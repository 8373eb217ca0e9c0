#!/usr/bin/env python3
"""Spells the repository's own definitions and lemmas as today's Rattle does, once, behind /opt/rattle/port/port.py.

usage: python3 tools/respell.py [--check]        at the top of the repository

A name that specs/*.antt or proofs/*.antt (not the files of a function's proof) declare turns where it is no type:
capitals inside it become `_` and a small letter, and a dash becomes `_`, but where it joins a name that is declared
to another, or a type to a name. A name from Rattle source, a module and a label that Rattle makes stay.
What turns: antt's code, the clauses and `ghost use` lines of .rt files, code spans of comments, and must-fail edits.
A line that begins `meets:` says that two names fell together; nothing is written then.
--check writes nothing. The table of what turned is tools/respelled.tsv.
"""
import os
import re
import sys

NAME = r"[^\s(){}\[\].;,@\"«»`]+"
HEAD = re.compile(r"^(?:(?:abbrev|unfoldable|pub|record|data|opaque|mutual) )*(" + NAME + r")(?: [({][^:]*)? :(?: |$)")
FIELD = re.compile(r"^ +(?:pub )?(" + NAME + r") :(?: |$)")
TOKEN = re.compile(r"[^\s(){}\[\].;,@\"«»`:/|]+")
# two names that would fall together, and names of the library that a file uses beside ours: spelled by hand
BY_HAND = {
    "byte-at": "byte_at_lem",
    "entries-in": "entries_in_lem",
    "icmp-in": "icmp_in_lem",
    "open-short": "open_short_lem",
    "pack-entries": "pack_entries_lem",
    "pack-ranges": "pack_ranges_lem",
    "put-range": "put_range_lem",
    "range-words": "range_words_lem",
    "receive-room": "receive_room_lem",
    "refused-line": "refused_line_lem",
    "same_bytes": "same_bytes_lem",
    "seen_as": "seen_as_lem",
    "send-room": "send_room_lem",
    "store_entry": "store_entry_lem",
    "store_range": "store_range_lem",
    "sum_room": "sum_room_lem",
    "with-room": "with_room_lem",
}
# the same in one file, since a function of src/ is called so
IN_FILE = {
    "crates/demands/specs/Examples.antt": {"in_order": "in_order_lem"},
    "crates/tunnel/proofs/judging/granted/Proof.antt": {"second_at": "second_at_lem"},
    "crates/lists/proofs/Views.antt": {"ranges_in": "ranges_in_lem"},
}


def files(kinds):
    for folder, dirs, names in os.walk("crates"):
        dirs[:] = sorted(d for d in dirs if d != "out")
        for n in sorted(names):
            if n.endswith(kinds):
                yield os.path.join(folder, n)


def is_module(path):
    """Whether a file declares names for others: specs/*.antt, proofs/*.antt."""
    return re.fullmatch(r"crates/\w+/(specs|proofs)/[^/]+\.antt", path) is not None


def declared():
    defs, laws = set(), set()
    for p in files(".antt"):
        if not is_module(p):
            continue
        for line in open(p, encoding="utf-8"):
            m = HEAD.match(line) or FIELD.match(line)
            if m and not line.startswith("use "):
                word = m.group(1)
                (defs if "/specs/" in p or line.startswith(("abbrev", "unfoldable", "  ")) else laws).add(word)
    return defs, laws


def snake(word):
    word = re.sub(r"(?<=[a-z0-9])[A-Z]", lambda m: "_" + m[0].lower(), word)
    return word


def spelled(word, defs):
    if not re.search(r"[A-Za-z]", word) or "◌" in word or word.startswith(("-", "_")):
        return word
    if word[0].isupper() and "-" not in word:
        return word
    out = word if word[0].isupper() else ""
    parts = word.split("-")
    made = parts[0] if parts[0][:1].isupper() else snake(parts[0])
    for i in range(1, len(parts)):
        left, right = "-".join(parts[:i]), "-".join(parts[i:])
        part = parts[i] if parts[i][:1].isupper() else snake(parts[i])
        joins = left in defs and right in defs or left[:1].isupper() and i == 1 or part[:1].isupper()
        made += ("-" if joins else "_") + part
    return made


def table():
    defs, laws = declared()
    rows = {}
    for word in sorted(defs | laws):
        new = BY_HAND.get(word, spelled(word, defs))
        if new != word:
            rows[word] = new
    return rows, defs | laws


def turn_words(text, rows):
    return TOKEN.sub(lambda m: rows.get(m[0], m[0]), text)


def turn_antt(text, rows):
    out = []
    for line in text.split("\n"):
        at = re.search(r"(?:^|\s)--(?:\s|$)", line)
        code, comment = (line[: at.start()], line[at.start() :]) if at else (line, "")
        out.append(turn_words(code, rows) + turn_spans(comment, rows))
    return "\n".join(out)


def turn_spans(text, rows):
    return re.sub(r"`[^`\n]*`", lambda m: turn_words(m[0], rows), text)


CLAUSE = re.compile(r"\b(?:requires|ensures)\*?(?: \w+)? \{|\bghost(?: \w+)?(?: [:=])? \{|\bghost use\b")


def turn_rt(text, rows):
    """The clauses, from `requires {` to its closing brace, ghost members and `ghost use` lines; comments' code spans."""
    out, i = [], 0
    while True:
        m = CLAUSE.search(text, i)
        c = text.find("//", i)
        if c >= 0 and (m is None or c < m.start()):
            end = text.find("\n", c)
            end = len(text) if end < 0 else end
            out.append(text[i:c] + turn_spans(text[c:end], rows))
            i = end
            continue
        if m is None:
            out.append(text[i:])
            return "".join(out)
        out.append(text[i : m.start()])
        if m[0].endswith("use"):
            end = text.index(";", m.start())
        else:
            depth, end = 1, m.end()
            while depth:
                depth += {"{": 1, "}": -1}.get(text[end], 0)
                end += 1
        out.append(turn_words(text[m.start() : end], rows))
        i = end


def turn_edit(text, rows):
    path = re.search(r"^file: (\S+)", text, re.M)
    if path and path[1].endswith(".rt"):
        def one(m):
            body = m[2]
            return m[1] + (turn_words(body, rows) if CLAUSE.search(body) else body)
        return re.sub(r"^((?:old|new): ?)(.*)$", one, text, flags=re.M)
    return re.sub(r"^((?:old|new): ?)(.*)$", lambda m: m[1] + turn_words(m[2], rows), text, flags=re.M)


def main():
    rows, own = table()
    bad = False
    seen = {}
    for old, new in rows.items():
        if new in seen or new in own and new not in rows and not any(new in t for t in IN_FILE.values()):
            print(f"meets: {old} and {seen.get(new, new)}, both as {new}")
            bad = True
        seen[new] = old
    work = []
    for p in files((".antt", ".rt", ".edit")):
        text = open(p, encoding="utf-8").read()
        turn = turn_antt if p.endswith(".antt") else turn_rt if p.endswith(".rt") else turn_edit
        here = rows | IN_FILE.get(p, {})
        new = turn(text, here)
        if new == text:
            continue
        # a name that the file used already under the new spelling
        if p.endswith(".antt"):
            code = "\n".join(re.sub(r"(?:^|\s)--(?:\s.*|$)", "", l) for l in text.split("\n"))
            words = {m[0] for m in TOKEN.finditer(code) if code[m.start() - 1 : m.start()] != "."}
            for old, now in here.items():
                if old in words and now in words and now not in here:
                    print(f"meets: {p}: {old}, and {now} is there")
                    bad = True
        work.append((p, new))
    if bad:
        return 1
    if "--check" not in sys.argv:
        for p, new in work:
            open(p, "w", encoding="utf-8").write(new)
        with open("tools/respelled.tsv", "w", encoding="utf-8") as f:
            f.writelines(f"{a}\t{b}\n" for a, b in sorted(rows.items()))
    print(f"{len(rows)} names, {len(work)} files")
    return 0


if __name__ == "__main__":
    raise SystemExit(main())

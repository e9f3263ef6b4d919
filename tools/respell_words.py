#!/usr/bin/env python3
"""Respells the words of specs/ and proofs/ in snake case: definitions, fields, ghost members and lemmas.

Run once at the top of the repository, after the toolchain's port.py. Types and modules keep their camel case. Functions of src/,
strings, inputs and outputs keep their names, and so do the goals that the toolchain names in proofs/. It prints the names that fall
together.
"""
import collections
import glob
import re
import sys

DECLARED = re.compile(r"^(?:(?:abbrev|unfoldable|pub|data|record|ruleset)\s+)*([^\s:(){}\[\],.]+)(?:\s+[({].*)?\s*:(?:\s+(.*))?$")
FIELD = re.compile(r"^\s+(?:pub )?([^\s:(){}\[\],.]+) : ")
NESTED = re.compile(r"^( {2,})(?:(?:abbrev|unfoldable|pub)\s+)*([^\s:(){}\[\],.]+)(?:\s+[({].*)?\s*: ")
GHOST = re.compile(r"^\s*(?:pub )?ghost ([A-Za-z_'-]+)[ :=]")
# names that would fall together with another's, or that speak of an older word
SPECIAL = {
    "height-or": "height_is",
    "column-or": "column_is",
    "columns-or": "columns_are",
    "turn-or": "turn_is",
    "mended-count": "mended_on_record",
    "inWindow": "among_window",
    "getD-bytesOf": "get_or_bytes_of",
    "from-letter": "from_letter_of_letter",
    "letter-of": "letter_of_form",
    "level-pairs": "pairs_level",
    "rule-begun": "rule_begun_fingers",
}
# the same in one crate alone
IN_CRATE = {"crates/runs/proofs/": {"count_at": "count_at_index"}}


def antt_files():
    return sorted(glob.glob("crates/*/specs/**/*.antt", recursive=True) + glob.glob("crates/*/proofs/**/*.antt", recursive=True))


def rt_files():
    return sorted(glob.glob("crates/*/src/**/*.rt", recursive=True))


def snake(name):
    if name in SPECIAL:
        return SPECIAL[name]
    words = re.sub(r"([a-z0-9])([A-Z])", lambda m: m[1] + "_" + m[2].lower(), name)
    return words.replace("-", "_").replace("′", "'")


def gather():
    names, fields, goals = set(), set(), set()
    for path in antt_files():
        answers = re.search(r"/(Answers|Invariants|Proof)\.antt$", path)
        block = None
        lines = open(path, encoding="utf-8").read().split("\n")
        # within a module or a where: the name is defined below its type, as far to the right
        for number, line in enumerate(lines):
            inner = NESTED.match(line)
            if inner and not inner[2][0].isupper():
                below = re.compile(re.escape(inner[1] + inner[2]) + r"(?![\w\-'′]).*=")
                if any(below.match(later) for later in lines[number + 1:number + 12]):
                    names.add(inner[2])
        for line in lines:
            if line.startswith("module _"):
                block = None
            head = DECLARED.match(line)
            if head and not line.startswith(("use ", "pub use ", "--", "mod ", "pub mod ", "let ", "in ")):
                kind = re.match(r"(?:pub )?(record|data)\b", line)
                block = kind[1] if kind else None
                if answers and re.match(r"(?:goal|Goal|given)\b", (head[2] or "").strip()):
                    goals.add(head[1])
                elif not head[1][0].isupper():
                    names.add(head[1])
                continue
            field = FIELD.match(line)
            if block and field and not line.strip().startswith("--"):
                (fields if block == "record" else names).add(field[1])
    for path in rt_files():
        for line in open(path, encoding="utf-8"):
            ghost = GHOST.match(line)
            if ghost and ghost[1] != "use":
                fields.add(ghost[1])
                names.add(ghost[1])
    return names, fields, goals


# what a file imports from the library and the logic: such a name is not the repository's own
def brought(text):
    names = set()
    for line in re.findall(r"^(?:pub )?use (?:Rattle\.std|lib|borrow|denote)\b[^\n{]*\{([^}]*)\}", text, re.M):
        names.update(name.strip() for name in line.split(","))
    return names


def respelled(names, fields, goals):
    out = {}
    for name in sorted(names | fields):
        new = snake(name)
        if new != name and name not in goals:
            out[name] = new
    return out


def respell(text, table, fields, ghost_only):
    if not table:
        return text
    pattern = re.compile(r"(?<![\w\-'′◌·])(" + "|".join(sorted(map(re.escape, table), key=len, reverse=True)) + r")(?![\w\-'′◌·])")

    def one(match):
        name, start = match[1], match.start()
        before = text[max(0, start - 200):start]
        qualifier = re.search(r"([\w\-'′]+)\.$", before)
        if qualifier and name not in fields and not qualifier[1][0].isupper():
            skipped[name] += 1
            return name
        return table[name]

    if not ghost_only:
        return pattern.sub(one, text)
    out = []
    for line in text.split("\n"):
        ghost = re.match(r"\s*(pub )?(ghost\b|requires|ensures|invariant|λ|→|#\[tactic|\()", line) or "≡" in line or "→" in line
        out.append(pattern.sub(lambda m: table[m[1]], line) if ghost else line)
    return "\n".join(out)


skipped = collections.Counter()


def main():
    names, fields, goals = gather()
    table = respelled(names, fields, goals)
    taken = collections.defaultdict(set)
    for old, new in table.items():
        taken[new].add(old)
    for new, olds in sorted(taken.items()):
        if len(olds) > 1 or new in names | fields:
            print("falls together:", new, "from", ", ".join(sorted(olds)), "and itself" if new in names | fields else "")
    for name in sorted((names | fields) & goals):
        print("also a goal:", name)
    texts = {}
    for path in antt_files():
        text = open(path, encoding="utf-8").read()
        own = {old: new for old, new in table.items() if old not in brought(text)}
        for start, more in IN_CRATE.items():
            if path.startswith(start):
                own.update({old: new for old, new in more.items() if new not in names})
        texts[path] = respell(text, own, fields, False)
    for path in rt_files() + sorted(glob.glob("crates/*/must-fail/*.edit")):
        texts[path] = respell(open(path, encoding="utf-8").read(), table, fields, True)
    for path in sorted(glob.glob("docs/*.md")) + ["README.md"]:
        if not path.startswith("docs/PORT"):
            text = open(path, encoding="utf-8").read()
            camel = {old: new for old, new in table.items() if re.search(r"[a-z][A-Z]", old)}
            texts[path] = re.sub(r"`([^`\n]+)`", lambda m: "`" + camel.get(m[1], m[1]) + "`", text)
    for path, text in texts.items():
        if "--try" not in sys.argv:
            open(path, "w", encoding="utf-8").write(text)
    for name, count in sorted(skipped.items()):
        print("left after a dot:", name, count)
    print(len(table), "words respelled")


main()

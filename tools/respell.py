#!/usr/bin/env python3
"""Respells the repository's own definitions and lemmas: types in upper camel case, all else in snake case.

usage: python3 tools/respell.py [--dry]     at the top of the repository, once, after the kit's port.py

A name is respelled where it is declared in crates/*/specs/*.antt or crates/*/proofs/*.antt (not in the folders of single functions, whose
names the check makes). A dash stays where it joins two names, the first of which is itself a definition, as in `take-append`.
Strings in src/ and names of src/ stay. Names that fall together, or that a library also has in the same file, are told and left.
"""
import glob
import re
import sys

TOKEN = re.compile(r"[^\s(){}\[\];,.\"«»|]+")
DECLARED = re.compile(r"^(\s*)((?:pub |abbrev |unfoldable )*)([^\s(){}\[\];,.\"«»|:]+) :(?:\s|$)")
TYPE = re.compile(r"^\s*(?:pub )?(?:data|record) ([^\s(){}\[\];,.\"«»|:]+)")
NUMBERED = re.compile(r"[A-Za-z]")
# names that a function of the same crate already has, or that say less than they should
CHOSEN = {
    "fillOf": "fill_from",
    "swapOf": "swap_from",
    "insertOf": "insert_from",
    "isHeader": "is_header_block",
    "isRecord": "is_record_block",
    "readHeader": "header_in",
    "readRecord": "record_in",
    "setBlock": "block_of_set",
    "twoPages": "page_pair",
    "redoRecord": "record_redone",
    "redoRecords": "records_redone",
    "firstKey": "opening_key",
    "highest-in": "highest_among",
    "journal-plan": "journal_plan_lem",
    "shadow-plan": "shadow_plan_lem",
    "writes-into": "writes_inside",
    "contentsOf": "contents_in",
    "Page-steps": "PageKindSteps",
}
# words of the libraries that lemma names begin with
WORDS = "length take drop map set append get_or cond eqb ltb leb not and or all sum concat replicate rev filter fold count_ones insert".split()


def sources():
    return sorted(glob.glob("crates/*/specs/*.antt") + glob.glob("crates/*/proofs/*.antt"))


def users():
    return sorted(glob.glob("crates/*/specs/*.antt") + glob.glob("crates/*/proofs/**/*.antt", recursive=True) + glob.glob("crates/*/src/**/*.rt", recursive=True))


def read(path):
    with open(path, encoding="utf-8") as f:
        return f.read()


def snake(word):
    word = re.sub(r"([a-z0-9])([A-Z])", r"\1_\2", word)
    return word.lower()


FUNCTIONS = set(re.findall(r"\bfn ([a-z_0-9]+)", "".join(open(p, encoding="utf-8").read() for p in glob.glob("crates/*/src/**/*.rt", recursive=True))))


def camel(name):
    return "".join(p[:1].upper() + p[1:] for p in re.split(r"[-_]", name))


def declared():
    """Each name with: is it a type, is it a lemma (in a file of laws or facts), is it a field."""
    names = {}
    for path in sources():
        lines = read(path).split("\n")
        laws = "/proofs/" in path or path.endswith("Laws.antt") and not path.endswith("/Laws.antt")
        for i, line in enumerate(lines):
            m = TYPE.match(line)
            if m:
                names.setdefault(m.group(1), {}).setdefault("type", True)
                continue
            m = DECLARED.match(line)
            if not m or line.strip().startswith("--") or "let " in line.split(":")[0]:
                continue
            name = m.group(3)
            text = line[m.end():]
            for more in lines[i + 1:i + 12]:
                if not more.strip() or not more.startswith(m.group(1) + "  "):
                    break
                text += " " + more.strip()
            text = text.split(" = ")[0].strip()
            about = names.setdefault(name, {})
            about["type"] = about.get("type", False) or bool(re.search(r"(^|→\s*)Type( 0)?$", text))
            about["law"] = about.get("law", True) and laws
    return names


def respelled(name, about, known):
    if name in CHOSEN:
        return CHOSEN[name]
    if not about.get("type") and name[0].isupper() and "-" not in name:
        return name
    if not NUMBERED.search(name) or re.search(r"[^A-Za-z0-9_'-]", name):
        return name
    if about.get("type"):
        return camel(name) if name[0].isupper() or "-" in name else name
    parts = name.split("-")
    words = [snake(p) for p in parts]
    if about.get("law") and len(words) > 1 and words[0] in known:
        return words[0] + "-" + "_".join(words[1:])
    new = "_".join(words)
    return new + "_lem" if new != name and about.get("law") and new in FUNCTIONS else new


def imports(text):
    """The names that a file imports from elsewhere than this repository's crates."""
    own = {p.split("/")[1] for p in glob.glob("crates/*/")}
    found = set()
    for m in re.finditer(r"^(?:ghost )?use ([^\s{]+)\{([^}]*)\}", text, re.M):
        path = m.group(1).split(".")
        if path[0] == "Rattle" and len(path) > 1 and path[1] in own:
            continue
        for item in m.group(2).split(","):
            found.add(item.split(" as ")[0].strip())
            found.add(item.split(" as ")[-1].strip())
    return found


def turned(text, table, skip):
    def one(m):
        t = m.group(0)
        if t in skip:
            return t
        if t in table:
            return table[t]
        return t
    return TOKEN.sub(one, text)


def without_strings(text, turn):
    """Turns a Rattle source, but not its strings and comments."""
    out = []
    for part in re.split(r"(\"(?:\\.|[^\"\\])*\"|//[^\n]*)", text):
        out.append(part if part.startswith('"') or part.startswith("//") else turn(part))
    return "".join(out)


def main():
    dry = "--dry" in sys.argv
    names = declared()
    simple = {snake(n) for n in names if "-" not in n} | set(WORDS)
    table = {n: respelled(n, a, simple) for n, a in names.items()}
    table = {n: t for n, t in table.items() if n != t}
    tokens = {}
    for path in users():
        for t in set(TOKEN.findall(read(path))):
            tokens.setdefault(t, set()).add(path)
    back = {}
    for n, t in table.items():
        back.setdefault(t, []).append(n)
    for t, ns in sorted(back.items()):
        both = set.intersection(*(tokens.get(n, set()) for n in ns))
        if len(ns) > 1 and both:
            print("together:", t, "<-", ", ".join(ns), "in", ", ".join(sorted(both)[:4]))
        if t in tokens:
            where = sorted(tokens[t] & set().union(*(tokens.get(n, set()) for n in ns)))
            if where:
                print("there already:", t, "<-", ns[0], "in", ", ".join(where[:4]))
    print(f"{len(table)} names respelled")
    if "--names" in sys.argv:
        for n, t in sorted(table.items()):
            print(" ", n, "->", t)
    for path in users():
        text = read(path)
        skip = imports(text)
        for n in sorted(skip & set(table)):
            print("a library has it:", n, "in", path)
        turn = lambda x: turned(x, table, skip)
        new = without_strings(text, turn) if path.endswith(".rt") else turn(text)
        if new != text and not dry:
            with open(path, "w", encoding="utf-8") as f:
                f.write(new)


main()

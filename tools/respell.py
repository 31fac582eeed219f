#!/usr/bin/env python3
"""respell.py: spells the names that this repository declares in antt as today's Rattle does: words in snake case.

Run it once at the top, right after the kit's port.py. `movedUp` becomes `moved_up` and `moved-stay` becomes `moved_stay`, in specs/, proofs/,
clauses, must-fail edits and the code spans of pages. Types keep their capitals; functions of src/, exported names, strings, inputs and outputs
keep theirs. A name that a file brings from a library stays in that file. It prints names that would fall together, and then writes nothing.
"""
import glob
import os
import re
import sys

# A lemma that would have its function's name, and a name that Rust has already or that a field and a function would share.
OTHER = {
    "code-line": "code_line_lem",
    "confirm-step": "confirm_step_lem",
    "offer-step": "offer_step_lem",
    "query-step": "query_step_lem",
    "work_step": "work_step_lem",
    "request-of": "request_of_lem",
    "head-back": "head_back_lem",
    "first-free": "first_free_lem",
    "first-named": "first_named_lem",
    "item-at": "item_at_lem",
    "op-back": "op_back_lem",
    "place-back": "place_back_lem",
    "slot-back": "slot_back_lem",
    "first_off": "first_off_lem",
    "new-entry": "new_entry_lem",
    "slot-of": "slot_of_lem",
    "struct-of": "struct_of_lem",
    "head-line": "head_line_lem",
    "op-line": "op_line_lem",
    "is-used": "is_used_lem",
    "op-in": "op_in_lem",
    "in-class": "in_class_lem",
    "names-none": "names_none_lem",
    "no-op": "lacks_op",
    "is-record": "holds_record",
    "to-do": "left_to_do",
    "put-backs": "counts_put_backs",
    "free-slot": "slot_was_free",
    "sumOf": "sum_over",
    "lowestFree": "lowest_free_place",
    "oneLess": "less_one",
    "freeSlot": "slot_free",
    "opsIn": "ops_within",
    "slotIn": "slot_within",
    "opIn": "op_within",
    "opBytes": "bytes_of_op",
    "headBytes": "bytes_of_head",
    "recordBytes": "bytes_of_record",
    "goesOn": "may_go_on",
    "slot-free": "slot_free_lem",
}

END = r"(?![^\s(){}\[\].;,@\"«»`:+≤<≡])"
WORD = re.compile(r'[^\s(){}\[\].;,@"«»`]+')
DECLARED = re.compile(r"^\s*(?:(?:unfoldable|abbrev|pub|record|data|ruleset)\s+)*([^\s:(){}]+)((?:\s+(?:\(.*?\)|\{.*?\}))*)\s+:\s")
MADE = re.compile(r"/proofs/.*/?Proof\.antt$")


def snake(name):
    if name in OTHER:
        return OTHER[name]
    if name[0].isupper() and "-" not in name:
        return name
    words = re.sub(r"(?<=[a-z0-9])[A-Z]", lambda m: "_" + m[0].lower(), name) if name[0].islower() else name
    return words.replace("-", "_")


def files(*ends):
    roots = ["crates", "edits", "docs", "README.md", "tests", ".ci", "examples"]
    for root in roots:
        for path in [root] if os.path.isfile(root) else sorted(glob.glob(root + "/**/*", recursive=True) + glob.glob(root + "/**/.*", recursive=True)):
            if os.path.isfile(path) and path.endswith(ends) and "/out/" not in path:
                yield path


def declared():
    names = set()
    for path in files(".antt"):
        if MADE.search(path):
            continue
        for line in open(path):
            m = DECLARED.match(line)
            if m and not line.startswith(("use ", "pub use ", "--")):
                names.add(m[1])
    return {n: snake(n) for n in names | set(OTHER) if snake(n) != n}


def spelled(table):
    """The names that are declared and have, or get, the spelling of today: an edit or a page may still have the older one, which port.py leaves there."""
    names = set(table.values())
    for path in files(".antt"):
        for line in open(path):
            m = DECLARED.match(line)
            if m and not MADE.search(path):
                names.add(m[1])
    return names


def brought(text):
    """The names that the file brings from libraries."""
    out = set()
    for module, names in re.findall(r"\buse ([^\s;{]+)\.\{([^}]*)\}", text):
        if not re.match(r"Rattle\.(?!std\b|core\b|io\b|libc\b)", module):
            out |= {n.strip().split(" as ")[0] for n in names.split(",")}
    return out


def turn_code(text, table):
    return WORD.sub(lambda m: table.get(m[0], m[0]), text)


def turn_spans(text, table):
    return re.sub(r"`[^`\n]+`", lambda m: turn_code(m[0], table), text)


def older(text, table, names):
    """The table with the names of the text that port.py respelled elsewhere."""
    words = {w for w in WORD.findall(text) if re.search(r"[a-z0-9][A-Z]|-", w) and w not in table}
    return {**table, **{w: snake(w) for w in words if snake(w) in names}}


def turn(path, text, table, names):
    table = {a: b for a, b in table.items() if a not in brought(text)}
    if path.endswith((".md", ".edit")):
        table = older(text, table, names)
    if path.endswith(".md"):
        return turn_spans(text, table)
    mark = {"antt": "--", "rt": "//", "edit": "#"}[path.rsplit(".", 1)[1]]
    out = []
    for line in text.split("\n"):
        code, sep, said = line.partition(mark) if mark != "#" else (("", "#", line[1:]) if line.startswith("#") else (line, "", ""))
        if path.endswith(".rt"):
            code = re.sub(r'(b?"[^"]*")|([^"]+)', lambda m: m[1] or turn_code(m[2], table), code)
        else:
            code = turn_code(code, table)
        out.append(code + sep + turn_spans(said, table))
    return "\n".join(out)


def main():
    table = declared()
    names = spelled(table)
    met = 0
    new = {}
    for path in files(".antt", ".rt", ".edit", ".md"):
        text = open(path).read()
        turned = turn(path, text, table, names)
        if turned == text:
            continue
        new[path] = turned
        if path.endswith((".antt", ".rt")):
            kept = brought(text)
            came = {}
            for word in sorted(set(WORD.findall(text))):
                name = word if word in kept else table.get(word, word)
                if name in came:
                    print(f"{path}: {came[name]} and {word} would both be {name}")
                    met += 1
                came[name] = word
    if met and "--anyway" not in sys.argv:
        sys.exit(f"{met} names meet; nothing is written")
    for path, text in new.items():
        open(path, "w").write(text)
    print(f"{len(table)} names, {len(new)} files")


main()

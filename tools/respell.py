#!/usr/bin/env python3
"""Respells this repository's own definitions and lemmas: words in snake case, facts and types in camel case.

Run once at the top of the repository. It goes by whole names, in specs/, proofs/, the clauses of src/, must-fail/ and,
between backquotes, in README.md and docs/. Functions of src/, goals and steps keep their names."""
import glob
import re

DECLARED = re.compile(r"^\s*(?:abbrev |unfoldable )?(?:pub )?(?:abbrev |unfoldable )?(?:record |data )?([^\s:(){}=]+)\s+(?:[({][^)}]*[)}]\s*)*:\s")
GOAL = re.compile(r":\s*goal\.")
# names that hold an older word of the library, or have no dash
OTHERS = {
    "allInvert": "all_invert",
    "decides-T": "decides_is_true",
    "decides-leZ": "decides_int_le",
    "decides-leb": "decides_nat_le",
    "getD-renewed": "get_or_renewed",
    "getD-renewed-from": "get_or_renewed_from",
}
LETTER = r"[\w\-'·]"


def respelled(name):
    if name in OTHERS:
        return OTHERS[name]
    if name[0].isupper():
        return "".join(part[0].upper() + part[1:] for part in name.split("-"))
    return name.replace("-", "_")


def antt_files():
    return sorted(
        glob.glob("crates/*/specs/**/*.antt", recursive=True) + glob.glob("crates/*/proofs/**/*.antt", recursive=True)
    )


def own_names():
    names = set()
    for path in antt_files():
        for line in open(path):
            found = DECLARED.match(line)
            if found and not GOAL.search(line) and not line.lstrip().startswith(("--", "use ", "let ", "λ")):
                names.add(found.group(1))
    return names


def main():
    changed = {n: respelled(n) for n in own_names() if respelled(n) != n}
    pattern = re.compile(
        rf"(?<!{LETTER})({'|'.join(re.escape(n) for n in sorted(changed, key=len, reverse=True))})(?!{LETTER})"
    )

    def turn(text):
        return pattern.sub(lambda m: changed[m.group(1)], text)

    def turn_page(text):
        return re.sub(r"`[^`\n]*`", lambda m: turn(m.group(0)), text)

    files = {p: turn for p in antt_files() + glob.glob("crates/*/src/**/*.rt", recursive=True) + glob.glob("crates/*/must-fail/*.edit")}
    files.update({p: turn_page for p in ["README.md"] + glob.glob("docs/*.md")})
    words = set()
    for path, how in files.items():
        if how is turn:
            words.update(re.findall(rf"(?<!{LETTER})[^\W\d]{LETTER}*", open(path).read()))
    for old, new in sorted(changed.items()):
        if new in words or list(changed.values()).count(new) > 1:
            print(f"falls together: {old} {new}")
    for path, how in sorted(files.items()):
        before = open(path).read()
        after = how(before)
        if after != before:
            open(path, "w").write(after)
    for old, new in sorted(changed.items()):
        print(f"{old} {new}")


main()

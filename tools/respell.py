#!/usr/bin/env python3
"""Brings the repository's own antt names to snake case, and its types to upper camel case.

    tools/respell.py            at the top of the repository, once, after the kit's own port script
    tools/respell.py --list     only prints each old name and its new one

Names that Rattle makes (goals, steps) and the library's names stay. A lemma keeps a dash where it joins two functions.
"""
import os
import re
import sys

WORD = r"[^\s(){}\[\];,.:\"«»⌜⌝λ|\\↦`]+"
# A declaration at the left edge: its marks, then the name, then ':' (or the levels in braces).
DECLARED = re.compile(r"^(?:(?:pub|pattern|unfoldable|abbrev|axiom) )*(?P<name>" + WORD + r")(?: \{[^}]*\})? :(?: |$)", re.M)
SHAPED = re.compile(r"^ *(?:pub )?(?:data|record)(?: pub)? (?P<name>" + WORD + ")", re.M)
# A field or a constructor of a record or data, or a function of a where block.
INDENTED = re.compile(r"^ +(?:(?:pub|unfoldable|abbrev) )*(?P<name>" + WORD + r") :(?: |$)", re.M)
ALIAS = re.compile(r"\bas (?P<name>" + WORD + ")")
BOUND = re.compile(r"\blet (?P<name>" + WORD + r")(?= :| =)")
GOAL = re.compile(r"\b(?:goal|goals|need|rules)\.(" + WORD + ")")
# Functions of the library that lemmas here speak of.
LIBRARY = set("length append drop take set replicate map filter get_or suc add mul div mod pow or xor and leb ltb".split())


def files():
    for folder, dirs, names in os.walk("crates"):
        dirs[:] = sorted(d for d in dirs if d not in ("out", "data"))
        for name in sorted(names):
            if name.endswith((".rt", ".antt")):
                yield os.path.join(folder, name)


def bare(text):
    return re.sub(r"--.*", "", text)


def main(listing):
    texts = {p: open(p, encoding="utf-8").read() for p in files()}
    own, functions, made, library = set(), set(LIBRARY), set(), set()
    for path, text in texts.items():
        code = bare(text)
        made |= set(GOAL.findall(code))
        for line in re.findall(r"^ghost use Rattle\.std\.[^;\n]*|^use Rattle\.std\.[^\n]*", code, re.M):
            library |= {w for w in re.findall(WORD, line)}
        if not path.endswith(".antt"):
            own |= set(ALIAS.findall(code))
            continue
        for form in (DECLARED, SHAPED, INDENTED, ALIAS, BOUND):
            own |= {m.group("name") for m in form.finditer(code)}
        if "/specs/" in path:
            functions |= {m.group("name") for m in DECLARED.finditer(code)}
    turned = {}
    for name in sorted(own):
        if ("-" not in name and "′" not in name) or name in made or name in library or name.startswith("◌") or not re.search(r"\w-\w|′", name):
            continue
        parts = name.split("-")
        if name[0].isupper():
            new = "".join(p[:1].upper() + p[1:] for p in parts)
        elif name not in functions and all(p in functions for p in parts):
            new = name
        else:
            new = "_".join(parts)
        new = new.replace("′", "'")
        if new != name:
            turned[name] = new
    if listing:
        for old, new in turned.items():
            print(old, new)
        return 0
    clash = 0
    for path, text in texts.items():
        code = bare(text) if path.endswith(".antt") else text
        seen = {}
        # A function of src/ and the folder of its proof may have the name of the definition that says what it returns.
        code = re.sub(r"(\bfn |\.proofs\.[\w.]*|[.:])\b" + r"[a-z]\w*", " ", code)
        code = re.sub(r"\b[a-z]\w*\(", "(", code)
        for word in set(re.findall(WORD, code)):
            seen.setdefault(turned.get(word, word), set()).add(word)
        for new, olds in seen.items():
            if len(olds) > 1:
                clash += 1
                print(f"respell: {path}: {' and '.join(sorted(olds))} fall together as {new}")
    back = {}
    for old, new in turned.items():
        back.setdefault(new, []).append(old)
    for new, olds in back.items():
        if len(olds) > 1:
            clash += 1
            print(f"respell: {' and '.join(olds)} fall together as {new}")
    if clash:
        return 1
    for path, text in texts.items():
        lines = []
        for line in text.split("\n"):
            code, mark, comment = line.partition("//" if path.endswith(".rt") else "--")
            if path.endswith(".rt") and '"' in code:
                lines.append(line)
                continue
            lines.append(re.sub(WORD, lambda m: turned.get(m.group(), m.group()), code) + mark + comment)
        new = "\n".join(lines)
        if new != text:
            open(path, "w", encoding="utf-8").write(new)
    print(f"respell: {len(turned)} names")
    return 0


if __name__ == "__main__":
    sys.exit(main("--list" in sys.argv[1:]))

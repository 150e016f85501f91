#!/usr/bin/env python3
"""respell-names.py: gives the names that this repository's own definitions and lemmas declare the spelling of Rattle.

Words are in snake case: a dash or a hump inside an own name becomes an underscore (`by-ring` is `by_ring`, `runBelow` is
`run_below`). Types keep their capital, and a name that begins with a type keeps its dash (`Less-less`). Run once, at the
top of the checkout, right after the kit's port.py; it goes by spelling and prints names that would fall together, which
then stay as they are. It turns .antt files, clauses and comments' code spans of .rt files, and code spans of pages.

Not turned: functions of src/ and exported names, strings, names that a file imports from a library of the kit, and in the
folders of proofs/ the names that Rattle makes.
"""
import glob
import os
import re
import sys

WORD = r"[^\s(){}\[\];,.«»⌜⌝`\"]+"
TOKEN = re.compile(r"(?<![^\s(){}\[\];,.«»⌜⌝`\"])" + WORD)
USE = re.compile(r"\buse ([A-Za-z_][\w.+'-]*?)\.?(?:\{([^}]*)\})?(?=[;\s]|$)")
MADE = {"Goals", "Given", "Needs", "Tie", "Lts", "Statement", "contracts", "declared", "Met"}
# Functions that were named like types; lemmas that would have their function's name; and a dash that joins two names.
BY_HAND = {
    "Turn": "turn_of",
    "Cross": "cross_of",
    "SideTurn": "side_turn",
    "turn-of": "turn_of_lem",
    "pick-from": "pick_from_lem",
    "next-in": "next_in_lem",
    "has-centre": "has_centre_lem",
    "run-line": "run_line_lem",
    "bit-and": "bit-and",
    "bit-or": "bit-or",
    "bit-xor": "bit-xor",
}


def crates():
    with open("crates.txt", encoding="utf-8") as f:
        return {line.split(":")[0].split()[0] for line in f if ":" in line.split("#")[0]}


def is_proof(path):
    return os.path.basename(path) in ("Proof.antt", "Answers.antt", "Invariants.antt") and "/proofs/" in path


def respelled(name):
    if name in BY_HAND:
        return BY_HAND[name]
    if not re.match(r"[a-z<>≤≥+*&|∷=≢≡_]", name):
        return name
    name = re.sub(r"(?<=\w)-(?=[\w'<>≤≥≡≢+*∷])", "_", name)
    return re.sub(r"(?<=[a-z0-9])([A-Z])(?![A-Z])", lambda m: "_" + m[1].lower(), name) if re.match(r"[a-z]", name) else name


def code(line):
    return re.split(r"(?:^|(?<=\s))--(?=\s|$)", line, maxsplit=1)


def imports(text, own):
    """The names that a file brings from the repository, and those that it brings from the kit or that Rattle makes."""
    mine, theirs = set(), set()
    for path, names in USE.findall(text):
        steps = path.split(".")
        is_own = steps[0] == "Rattle" and len(steps) > 2 and steps[1] in own and not MADE & set(steps[2:])
        for name in re.split(r",\s*", (names or "").strip()):
            for part in name.split(" as "):
                (mine if is_own else theirs).add(part.strip())
    return mine, theirs


def main():
    own = crates()
    files = sorted(glob.glob("crates/**/*.antt", recursive=True))
    files = [f for f in files if "/out/" not in f]
    texts = {f: open(f, encoding="utf-8").read() for f in files + sorted(glob.glob("crates/*/src/**/*.rt", recursive=True))}
    declared = set()
    for f in files:
        if is_proof(f):
            continue
        mine, theirs = imports(texts[f], own)
        for line in texts[f].split("\n"):
            head = code(line)[0]
            for word in TOKEN.findall(head):
                if respelled(word) != word and word not in theirs:
                    declared.add(word)
    # Names that would fall together, in a file or across files, stay.
    fall = set()
    everywhere = {}
    for name in declared:
        everywhere.setdefault(respelled(name), set()).add(name)
    for new, names in everywhere.items():
        if len(names) > 1:
            print("falls together:", new, sorted(names))
            fall |= names
    for f in files:
        if is_proof(f):
            continue
        words = set()
        for line in texts[f].split("\n"):
            words |= set(TOKEN.findall(code(line)[0]))
        for word in words & declared:
            if respelled(word) in words and word not in fall:
                print("falls together:", f, word, respelled(word))
                fall.add(word)
    table = {n: respelled(n) for n in declared - fall}

    def turn(text, keep, only=None, after_dot=True):
        def one(m):
            word = m[0]
            line = text[text.rfind("\n", 0, m.start()) + 1 : m.start()]
            if re.match(r"\s*(pub )?mod $", line) or re.match(r"(ghost )?use [^{]*$", line):  # a module's name
                return word
            if word not in table or word in keep or (only is not None and word not in only):
                before = text[m.start() - 1 : m.start()]
                if not (word in table and before == "." and after_dot and only is not None and not MADE_FIELD.match(word)):
                    return word
            return table[word]

        return TOKEN.sub(one, text)

    MADE_FIELD = re.compile(r"(?:if|in|loop|then|else|match|after|slice|enum|struct|array|shared|returns|need|get_or)\b|.*-\d+$")
    spans = re.compile(r"`([^`\n]+)`")

    def spanned(text):
        return spans.sub(lambda m: "`" + turn(m[1], set()) + "`", text)

    for f, text in texts.items():
        mine, theirs = imports(text, own)
        if not f.startswith("crates/drawing/"):
            theirs.add("Cross")  # that two pairs cross is a type
        lines = text.split("\n")
        if f.endswith(".antt"):
            local = set()
            if is_proof(f):
                for m in re.finditer(r"(?m)^(" + WORD + r") :(?! *(?:tie|need|goal)\.)", text):
                    local.add(m[1])
                for m in re.finditer(r"\blet (" + WORD + r") [=:]", text):
                    local.add(m[1])
                for m in re.finditer(r"λ ([^.\n]{1,80})\.", text):
                    local |= set(m[1].split())
                local -= {"invariant-loop", "decreases-loop"}
            out = []
            for line in lines:
                parts = code(line)
                head = turn(parts[0], theirs, (mine | local) if is_proof(f) else None)
                out.append(head + ("--" + spanned(parts[1]) if len(parts) > 1 else ""))
            new = "\n".join(out)
        else:
            out, depth, inside = [], 0, False
            for line in lines:
                stripped = line.lstrip()
                if stripped.startswith("//"):
                    out.append(spanned(line))
                    continue
                if re.match(r"(requires|ensures|ghost)\b", stripped) or inside:
                    line_new = turn(line, theirs)
                    depth += line.count("{") - line.count("}")
                    inside = depth > 0 or stripped.startswith("ghost use") and ";" not in line
                    out.append(line_new)
                else:
                    out.append(line)
            new = "\n".join(out)
        if new != text:
            with open(f, "w", encoding="utf-8") as o:
                o.write(new)
    for f in ["README.md", "CONTRIBUTING.md", "peer/README.md"] + sorted(glob.glob("docs/*.md")):
        if os.path.exists(f) and not f.endswith("PORT.md"):
            text = open(f, encoding="utf-8").read()
            new = spanned(text)
            if new != text:
                open(f, "w", encoding="utf-8").write(new)
    print(len(table), "names respelled;", len(fall), "kept")
    return 0


if __name__ == "__main__":
    sys.exit(main())

#!/usr/bin/env python3
"""Respells this repository's own definitions and lemmas as today's Rattle spells names.

usage: python3 tools/respell.py [--list]       at the top of the repository; --list only prints the names

Functions, lemmas, fields and parameters are written in snake case, types and modules in camel case. The script reads which names the files of specs/ and proofs/
declare, and rewrites each whole word that is one of them in .antt files, and in .rt files outside strings. Names that Rattle makes (goals, and steps behind `c.`)
stay. It was run after port.py; a second run finds nothing to do.
"""

import glob
import os
import re
import sys

WORD = r"[^\s:(){}.,;=\[\]λ→×⊎|↦\"`◌«»]+"
DECLARED = re.compile(r"^\s*(?P<kind>(?:(?:abbrev|unfoldable|pub|record|data)\s+)*)(?P<name>" + WORD + r")(?P<rest>(?:\s+[({].*?)?)\s+:\s(?P<type>.*)$|^\s*(?P<kind2>(?:(?:abbrev|unfoldable|pub|record|data)\s+)+)(?P<name2>" + WORD + r")\s*:\s*$")
GOOD = re.compile(r"[a-z_][a-z0-9_]*[₀-₉]*'*|[A-Z][A-Za-z0-9]*[₀-₉]*'*|[Γ-Ωα-ω].*|[^A-Za-z]+")
# names that would fall together with another name, or that a rule does not spell well
CHOSEN = {
    "Infix-op": "InfixOp",
    "List-Elim": "ListElim",
    "Sum-Elim": "SumElim",
    "Tree-Elim": "TreeElim",
    "after-types": "takes_after_types",
    "arm-at": "the_arm_at",
    "entriesOf": "listed_entries",
    "heap-free": "heap_free_shown",
    "heapFree": "is_heap_free",
    "in-range": "ranges_in_range",
    "infixOf": "code_infix",
    "isChoice": "is_choice_head",
    "judgeAll": "exprs_verdict",
    "judgeArms": "arms_verdict",
    "judgeBodies": "bodies_verdict",
    "judgeBody": "body_verdict",
    "judgeProgram": "program_verdict",
    "judgement-is-hofmanns": "the_judgement_is_hofmanns",
    "nodesOf": "listed_nodes",
    "plainAnswer": "answer_of_result",
    "readTable": "scanned_table",
    "shapes-are-the-rules": "the_shapes_are_the_rules",
    "widthsOf": "type_widths",
    # constructors that share a line, and parameters
    "caseTree": "case_tree",
    "mkCons": "mk_cons",
    "mkLeft": "mk_left",
    "mkNode": "mk_node",
    "mkRight": "mk_right",
    "at-arms": "at_arms",
    "at-m": "at_m",
    "at-parts": "at_parts",
    "f-is": "f_is",
    "fit-in": "fit_in",
    "free-there": "free_there",
    "held-still": "held_still",
    "is-about": "is_about",
    "is-bare": "is_bare",
    "is-filled": "says_filled",
    "is-value": "is_value",
    "k-in": "k_in",
    "nodes-made": "nodes_made",
    "one-off": "one_off",
    "starts-made": "starts_made",
    "to-here": "to_here",
    "to-later": "to_later",
    "z-is": "z_is",
}


def files(*patterns):
    out = []
    for p in patterns:
        out += glob.glob("crates/" + p, recursive=True)
    return sorted(p for p in out if "/out/" not in p)


def declared():
    """Each name that is declared, with the text of its type on that line."""
    names = {}
    for p in files("*/specs/**/*.antt", "*/proofs/**/*.antt"):
        for line in open(p, encoding="utf-8"):
            m = DECLARED.match(line.split(" -- ")[0].rstrip("\n"))
            if not m or line.lstrip().startswith("--"):
                continue
            name, kind, type_ = m.group("name") or m.group("name2"), m.group("kind") or m.group("kind2") or "", (m.group("type") or "").strip()
            if re.match(r"(goal|needs?|given|rules)\.", type_):
                names.setdefault(name, []).append(None)
            else:
                names.setdefault(name, []).append((kind, type_, p))
    return names


def words(name):
    name = name.replace("-++", "-append").replace("getD", "get_or").replace("eqZ", "eq_z").replace("⁻¹", "_inverse")
    name = re.sub(r"(?<=[a-z0-9])(?=[A-Z])", "-", name)
    name = re.sub(r"(?<=[A-Z])(?=[A-Z][a-z])", "-", name)
    return [w for w in re.split(r"[-_]", name) if w]


def respelled(name, uses):
    if name in CHOSEN:
        return CHOSEN[name]
    prime = name[len(name.rstrip("'")):]
    parts = words(name.rstrip("'"))
    is_type = name[0].isupper() and all("record" in k or "data" in k or re.search(r"\bType 0\s*(where)?$|^$", t) for k, t, _ in uses)
    if is_type:
        return "".join(w[0].upper() + w[1:] for w in parts) + prime
    return "_".join(w.lower() for w in parts) + prime


USE = re.compile(r"use (?P<path>[^{};]*?)\.\{(?P<names>[^}]*)\}")


def imported():
    """The names that are imported from outside this repository, which stay, and the names that an `as` gives."""
    outside, aliases = set(), set()
    ours = {os.path.basename(c) for c in glob.glob("crates/*")}
    for p in files("*/specs/**/*.antt", "*/proofs/**/*.antt", "*/src/*.rt"):
        for m in USE.finditer(open(p, encoding="utf-8").read()):
            path = m.group("path").split(".")
            inside = path[0] == "Rattle" and len(path) > 1 and path[1] in ours
            for item in m.group("names").split(","):
                parts = item.split(" as ")
                if len(parts) == 2:
                    aliases.add(parts[1].strip())
                if not inside:
                    outside.add(parts[0].strip())
    return outside, aliases


def mapping():
    names = {}
    outside, aliases = imported()
    for name, uses in declared().items():
        if GOOD.fullmatch(name) or name in outside or any(u is None for u in uses):
            continue
        names[name] = respelled(name, uses)
    for name in aliases:
        if re.search("[a-z]", name) and not GOOD.fullmatch(name) and name not in names and name not in outside:
            names[name] = respelled(name, [("", "x", "")])
    names.update((a, b) for a, b in CHOSEN.items() if a not in names and a not in outside)
    return {a: b for a, b in names.items() if a != b}


TOKEN = re.compile(r"(?<![^\s:(){}.,;=\[\]λ→×⊎|↦\"`◌«»])" + WORD)


def turned(text, names):
    def one(m):
        t = m.group(0)
        if t in names and not re.search(r"(?<![\w'-])[cw]\.$", text[max(0, m.start() - 3):m.start()]):
            return names[t]
        return t
    return TOKEN.sub(one, text)


def turned_file(text, names, rust):
    """Strings of a .rt file stay. In a comment only names with a capital are turned: the others may be plain words, as heap-free."""
    capital = {a: b for a, b in names.items() if re.search("[A-Z]", a)}
    comment = r"(//[^\n]*)" if rust else r"((?:(?<=\n)|(?<=\s))--(?=\s)[^\n]*|^--[^\n]*)"
    out = []
    for piece in re.split(r'("(?:[^"\\\n]|\\.)*")', text) if rust else [text]:
        if rust and piece.startswith('"'):
            out.append(piece)
            continue
        for part in re.split(comment, piece):
            plain = not re.match(r"//|--(\s|$)", part or "")
            out.append(turned(part or "", names if plain else capital))
    return "".join(out)


def main(argv):
    names = mapping()
    all_antt, all_rt = files("*/specs/**/*.antt", "*/proofs/**/*.antt"), files("*/src/*.rt")
    present = set()
    for p in all_antt + all_rt:
        present.update(TOKEN.findall(open(p, encoding="utf-8").read()))
    made = {}
    for a, b in sorted(names.items()):
        made.setdefault(b, []).append(a)
    together = {b: a for b, a in made.items() if len(a) > 1 or b in present}
    if "--list" in argv:
        for a, b in sorted(names.items()):
            print(a, b)
        print("falls together:")
        for b, a in sorted(together.items()):
            print("  ", b, a, "present" if b in present else "")
        return 0
    for p in all_antt + all_rt:
        old = open(p, encoding="utf-8").read()
        new = turned_file(old, names, p.endswith(".rt"))
        new = re.sub(r"(?<![\w'])([\w']+) as \1(?![\w'])", r"\1", new)
        if new != old:
            with open(p, "w", encoding="utf-8") as f:
                f.write(new)
    print(f"{len(names)} names respelled")
    return 0


if __name__ == "__main__":
    raise SystemExit(main(sys.argv[1:]))

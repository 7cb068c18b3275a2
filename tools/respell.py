#!/usr/bin/env python3
"""Respells this repository's own names as today's Rattle spells names.

usage: python3 tools/respell.py [--list]      at the top of the repository, once, right after port.py

A definition, a lemma or a field of antt that the repository declares is turned to snake case: `allBinary` is `all_binary`, and a dash becomes `_`, as in `packing_more`,
but where it joins the names of two definitions, as in `packed-unpacked` and `coded-length`; a lemma that would have its definition's name gets `_lem`. Types, modules, the functions of src/, exported names, strings and programs' texts
keep theirs. Names turn in specs/, proofs/, clauses and `ghost use` lines, in the wrong programs of must-fail/, and in the code spans of README, CONTRIBUTING and docs/.
session/specs/Contracts.antt becomes Sessions.antt, since Rattle makes a module `contracts` of its own there.
--list writes nothing and prints old and new. Two names that would fall together are printed, and nothing is written.
"""

import os
import re
import subprocess
import sys

NAME = r"[^\s(){}\[\]|.;,@\"«»`:]+"
TOKEN = re.compile(NAME)
DECLARED = re.compile(r"^(\s*)((?:(?:unfoldable|abbrev|pub)\s+)*)(" + NAME + r") : ")
IMPORT = re.compile(r"(?m)^\s*(?:pub\s+)?(?:ghost )?use ([\w.+'-]+)\.\{([^}]*)\}")
# Fields of records whose names would fall together with a definition's.
FIELDS = {"encoder-fits": "encoder_fit", "receiver-fits": "receiver_fit", "no-search": "not_searched"}
# Names that are in snake case already, and would fall together with a definition's: by file, since functions of src/ have the same ones.
BY_FILE = {
    "crates/acelp_cc1/proofs/OwnInputs.antt": {"place_at": "place_at_lem"},
    "crates/checksums/proofs/Shifting.antt": {"same_bits": "same_bits_lem"},
    "crates/facch_laws/proofs/HalfTrip.antt": {"same_bit": "same_bit_lem"},
    "crates/flat_coding/proofs/Steps.antt": {"no_step": "not_stepped"},
    "crates/flat_coding/specs/Flat.antt": {"no_step": "not_stepped"},
    "crates/frames/proofs/Deciding.antt": {"goes_on": "goes_on_lem"},
    "crates/frames/proofs/streams/next_after/Proof.antt": {"goes_on": "goes_on_lem"},
}
STD = "length drop take map append set replicate reverse get_or".split()


def files(*endings):
    for top in ("crates",):
        for folder, dirs, names in os.walk(top):
            dirs[:] = sorted(d for d in dirs if d != "out")
            for n in sorted(names):
                if n.endswith(endings):
                    yield os.path.join(folder, n)


def read(path):
    with open(path, encoding="utf-8") as f:
        return f.read()


def write(path, text):
    with open(path, "w", encoding="utf-8") as f:
        f.write(text)


def snake(name):
    name = re.sub(r"([a-z0-9])([A-Z])", lambda m: m.group(1) + "_" + m.group(2).lower(), name)
    return name


def declared():
    """Returns the names that lemma files, definitions and helpers declare, and which of them are definitions."""
    names, definitions = {}, set()
    for path in files(".antt"):
        by_function = os.path.basename(path) == "Proof.antt"
        for line in read(path).splitlines():
            m = DECLARED.match(line)
            if not m or by_function:
                continue
            name = m.group(3)
            names.setdefault(name, path)
            if "/specs/" in path and ("abbrev" in m.group(2) or "unfoldable" in m.group(2)):
                definitions.add(snake(name))
    return names, definitions


def respelled(name, definitions):
    parts = snake(name).split("-")
    if parts[0] == "":
        return name
    text = parts[0]
    for before, part in zip(parts, parts[1:]):
        both = before in definitions and part in definitions
        text += ("-" if both else "_") + part
    return text


def table():
    names, definitions = declared()
    definitions |= set(STD)
    found = {}
    for n in names:
        if not (n[0].islower() or n[0].isdigit()) or "◌" in n:
            continue
        to = FIELDS.get(n) or respelled(n, definitions)
        if to != n:
            found[n] = to
    # A lemma that would have its definition's name.
    taken = set(names) - set(found) | {found[n] for n in found if "-" not in n}
    for n in found:
        if "-" in n and found[n] in taken:
            found[n] += "_lem"
    return found, names


def imported(text):
    """The names that a file takes from a library."""
    found = set()
    for module, listed in IMPORT.findall(text):
        own = module.startswith("Rattle.") and os.path.isdir(os.path.join("crates", module.split(".")[1]))
        if not own:
            for it in listed.split(","):
                found.update(it.strip().split(" as ")[:1])
    return found


def turned(text, names, dashes=True):
    return TOKEN.sub(lambda m: names.get(m.group(0), m.group(0)) if dashes or "-" not in m.group(0) else m.group(0), text)


def turned_antt(text, names):
    own = {a: b for a, b in names.items() if a not in imported(text)}
    lines = []
    for line in text.split("\n"):
        at = 0 if line.startswith("--") else line.find(" --")
        code, comment = (line, "") if at < 0 else (line[:at], line[at:])
        comment = re.sub(r"`[^`]*`", lambda m: turned(m.group(0), own), turned(comment, own, dashes=False))
        lines.append(turned(code, own) + comment)
    return "\n".join(lines)


def turned_rt(text, names):
    parts = re.split(r'("(?:[^"\\\n]|\\.)*")', text)
    return "".join(p if i % 2 else turned(p, names, dashes=False) for i, p in enumerate(parts))


def turned_page(text, names):
    return re.sub(r"`[^`\n]*`", lambda m: turned(m.group(0), names), text)


def clashes(found, names):
    lines = []
    back = {}
    for old, new in found.items():
        moved = any(new in by for by in BY_FILE.values())
        if new in back or (new in names and not moved):
            lines.append(f"{old} and {back.get(new, new)} would be {new}")
        back[new] = old
    return lines


def main(argv):
    found, names = table()
    if "--list" in argv:
        for old in sorted(found):
            print(f"{old}\t{found[old]}")
    bad = clashes(found, names)
    for line in bad:
        print("together: " + line, file=sys.stderr)
    if bad or "--list" in argv:
        return 1 if bad else 0
    for path in files(".antt"):
        write(path, turned_antt(read(path), found | BY_FILE.get(path, {})))
    for path in files(".rt"):
        write(path, turned_rt(read(path), found))
    for path in files(".edit"):
        write(path, turned(read(path), found))
    pages = ["README.md", "CONTRIBUTING.md"] + [os.path.join("docs", n) for n in sorted(os.listdir("docs")) if n.endswith(".md")]
    for path in pages:
        write(path, turned_page(read(path), found))
    subprocess.run(["git", "mv", "crates/session/specs/Contracts.antt", "crates/session/specs/Sessions.antt"], check=True)
    for path in list(files(".antt", ".rt")) + pages:
        text = read(path)
        new = text.replace("session.specs.Contracts", "session.specs.Sessions").replace("session/specs/Contracts.antt", "session/specs/Sessions.antt")
        if path == "crates/session/specs/Lib.antt":
            new = new.replace("pub mod Contracts", "pub mod Sessions").replace("(Contracts)", "(Sessions)")
        if new != text:
            write(path, new)
    print(f"{len(found)} names respelled")
    return 0


if __name__ == "__main__":
    raise SystemExit(main(sys.argv[1:]))

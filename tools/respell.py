#!/usr/bin/env python3
"""Spells this repository's own definitions and lemmas as today's Rattle does: words in snake case.

Run once, at the top, after /opt/rattle/port/port.py: python3 tools/respell.py
A name that is declared in specs/ or in a file of lemmas and has a capital behind a small letter, or a dash,
gets plain underscores (`withBurned-zero` becomes `with_burned_zero`), as port.py did where the library had
the same name. Types, modules, functions of src/, labels of goals and strings keep their names. A few names
have a row of their own in OWN. Names that would fall together are listed, and nothing is written then. The choice
of definitions, once `if_then_else_`, is `when◌then◌else◌`: the library has an operator of that form.
"""
import pathlib
import re
import sys

# `result` is a word of every clause now, and `ghost`, `entry` and the like are others
OWN = {"result": "panel_result"}
# lemmas that would have their function's name: in .antt files alone
LEMMAS = {n: n + "_lem" for n in ("gone_at", "half_up", "level_in", "read_out")}
NAME = r"[^\s(){}.;,@\"«»`\[\]]+"
DECLARED = re.compile(r"(?m)^ *(?:(?:abbrev|unfoldable|pub) )*(" + NAME + r")(?: \{[^{}\n]*\})* :(?= |$)")
TOKEN = re.compile(r"(?P<string>\"[^\"\n]*\")|(?P<dot>\.?)(?P<name>" + NAME + r")")


def snake(name):
    return re.sub(r"(?<=[a-z0-9])[A-Z]", lambda m: "_" + m[0].lower(), name).replace("-", "_")


def is_answers(path):
    return "proofs" in path.parts and path.name in ("Proof.antt", "Answers.antt", "Invariants.antt")


WORD = re.compile(r"(?<![\w.'◌-])if(?![\w'◌-])")


def chosen(text, path):
    """The choice under its own name: in definitions and proofs, and in the clauses of the files that import it."""
    if "if◌then◌else◌" not in text and (path.suffix == ".rt" or not re.search(r"\bif\b", text)):
        return text
    out = []
    for line in text.split("\n"):
        line = line.replace("if◌then◌else◌", "when◌then◌else◌")
        if path.suffix == ".rt":
            out.append(WORD.sub("when", line) if re.match(r"\s*(ensures|requires)\b", line) else line)
            continue
        at = 0 if line.lstrip().startswith("--") else line.find(" -- ")
        code, comment = (line, "") if at < 0 else (line[:at], line[at:])
        out.append(WORD.sub("when", code) + comment)
    return "\n".join(out)


def main():
    top = pathlib.Path(".")
    antt = [p for p in sorted(top.glob("crates/*/specs/**/*.antt")) + sorted(top.glob("crates/*/proofs/**/*.antt")) if "out" not in p.parts]
    declared, fields = set(), set()
    for p in antt:
        if is_answers(p):
            continue
        text = p.read_text()
        text = re.sub(r"(?m)--.*$", "", text)
        for m in DECLARED.finditer(text):
            declared.add(m[1])
        for block in re.finditer(r"(?m)^(?:pub )?record .*\bwhere\n((?:  .*\n?)*)", text):
            fields |= {m[1] for m in DECLARED.finditer(block[1])}
    new = {}
    for name in declared:
        if name in OWN:
            new[name] = OWN[name]
        elif re.match(r"[a-z]", name) and (re.search(r"[a-z0-9][A-Z]", name) or re.search(r"\w-\w", name)) and "◌" not in name:
            new[name] = snake(name)
    taken = {new.get(n, LEMMAS.get(n, n)) for n in declared if "-" not in n}
    for name in declared:
        if "-" in name and new.get(name) in taken:
            new[name] += "_lem"
        if name in LEMMAS:
            new[name] = LEMMAS[name]
    together = {}
    for name in declared:
        together.setdefault(new.get(name, name), set()).add(name)
    # a field of a record of theorems and a list of another crate
    together.pop("step_down", None)
    clash = {k: v for k, v in together.items() if len(v) > 1}
    for k, v in sorted(clash.items()):
        print("fall together:", k, sorted(v))

    def turned(text, path):
        def one(m):
            if m["string"]:
                return m[0]
            name, dot = m["name"], m["dot"]
            # behind a module's name a definition, else a field of a record
            of_module = re.search(r"(?<![\w.])([\w.]+\.)?[A-Z]\w*$", m.string[: m.start()])
            if dot and not (name in new and (name in fields or of_module)):
                return m[0]
            if path.suffix == ".rt" and (name in LEMMAS or name == "result" and not ("result (panelOf" in m.string or "{panelOf, result" in m.string)):
                return m[0]
            return dot + new.get(name, name)
        def said(m):
            # comments name definitions too, in words of their own or between backticks
            name = m["name"]
            if m["string"] or m["dot"] or "-" in name and m.string[m.start() - 1 : m.start()] != "`" or not re.search(r"[a-z0-9][A-Z]|-", name):
                return m[0]
            return new.get(name, name)
        sign = "//" if path.suffix == ".rt" else "--"
        lines = []
        for line in text.split("\n"):
            at = line.find(sign) if line.lstrip().startswith(sign) else line.find(" " + sign + " ")
            code, comment = (line, "") if at < 0 else (line[:at], line[at:])
            lines.append(TOKEN.sub(one, code) + TOKEN.sub(said, comment))
        return "\n".join(lines)

    if clash and "--force" not in sys.argv:
        return 1
    for p in antt + sorted(top.glob("crates/*/src/**/*.rt")):
        text = p.read_text()
        then = chosen(turned(text, p), p)
        if then != text:
            p.write_text(then)
    if "--map" in sys.argv:
        for k in sorted(new):
            print(k, new[k])
    return 0


raise SystemExit(main())

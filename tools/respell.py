#!/usr/bin/env python3
"""Brings the repository's own definitions and lemmas to the spelling of today's Rattle: run once, at the top, after port.py.

respell.tsv has a row for each name: old, a tab, new; docs.tsv the same for the pages, from the names before port.py. Words of
code turn, and in comments and pages what stands in backticks (docs/REPLAY.md has no such names). In src/, clauses and `ghost use` items turn. Beside names it writes

- an `ensures* { λ r. ⌜ .. ⌝ }` that port.py left as `ensures { .. }`, about `result`;
- the definition `result` of second_stage, which clauses would take for what a function returns, as `result_of`;
- `#[derive(Clone, Copy)]` on each plain type, for the `#[derive(Drop)]` that port.py wrote;
- `#![tactic(auto)]` below the head of each root file.
"""

import glob
import os
import re

HERE = os.path.dirname(os.path.realpath(__file__))
WORD = re.compile(r"[^\s(){}.;,@\"«»]+")
CLAUSE = re.compile(r"\b(?:requires|ensures)\*?\s*(?:\w+\s*)?\{|\bghost\s+use\b")
STARRED = re.compile(r"ensures\* \{ λ (\w+)\. ⌜ (.*) ⌝ \}")


def rows(name):
    with open(os.path.join(HERE, name), encoding="utf-8") as f:
        return dict(line.rstrip("\n").split("\t") for line in f)


TABLE, PAGES = rows("respell.tsv"), rows("docs.tsv")


def words(text, table):
    return WORD.sub(lambda m: table.get(m[0], m[0]), text)


def spans(text, table):
    return re.sub(r"`[^`\n]*`", lambda m: words(m[0].replace("`", " ` "), table).replace(" ` ", "`"), text)


def plain_result(text):
    """A use of the definition `result`, which is no field and no variable of a clause."""
    return re.sub(r"(?<![\w.'-])result(?![\w'-])", "result_of", text)


def antt(text, own_result):
    out = []
    for line in text.split("\n"):
        code, dash, comment = re.match(r"((?:(?!(?:^|\s)--(?:\s|$)).)*)(\s?--)?(.*)$", line).groups()
        code = words(code, TABLE)
        if own_result:
            code = plain_result(code)
        out.append(code + (dash or "") + spans(comment, PAGES))
    return "\n".join(out)


def end_of(text, at):
    """Behind the clause or item that begins here."""
    depth = 0
    for i in range(at, len(text)):
        if text[i] == "{":
            depth += 1
        elif text[i] == "}":
            depth -= 1
            if depth == 0 and not text.startswith("ghost", at):
                return i + 1
        elif text[i] == ";" and depth == 0:
            return i + 1
    return len(text)


def clause(text):
    m = STARRED.fullmatch(text)
    if m:
        name, body = m.groups()
        body = plain_result(body)
        if name != "_":
            body = re.sub(rf"(?<![\w.'-]){name}(?![\w'-])", "result", body)
        text = f"ensures {{ {body} }}"
    return words(text, TABLE)


def rattle(text, root):
    out, at = [], 0
    for m in CLAUSE.finditer(text):
        if m.start() < at or "//" in text[text.rfind("\n", 0, m.start()) + 1 : m.start()]:
            continue
        end = end_of(text, m.start())
        out += [text[at : m.start()], clause(text[m.start() : end])]
        at = end
    text = "".join(out) + text[at:]
    text = text.replace("specs.Words.{result}", "specs.Words.{result_of}").replace("specs.Words.{result,", "specs.Words.{result_of,")
    text = re.sub(r"(specs\.Words\.\{[^}]*, )result([,}])", r"\1result_of\2", text)
    text = text.replace("#[derive(Drop)]", "#[derive(Clone, Copy)]")
    text = "\n".join(spans(line, PAGES) if line.lstrip().startswith("//") else line for line in text.split("\n"))
    if root and "#![tactic(auto)]" not in text:
        head = re.match(r"(?://[^\n]*\n)*", text).end()
        text = text[:head] + "#![tactic(auto)]\n" + text[head:]
    return text


def page(text):
    return spans(text, PAGES)


def main():
    files = [p for p in glob.glob("crates/**/*", recursive=True) if p.endswith((".antt", ".rt")) and "/out/" not in p]
    for p in files + [p for p in glob.glob("docs/*.md") if p != "docs/REPLAY.md"] + ["README.md"]:
        with open(p, encoding="utf-8") as f:
            old = f.read()
        if p.endswith(".antt"):
            own = bool(re.search(r"second_stage\.specs\.Words\.\{[^}]*\bresult\b", old)) or p.endswith("second_stage/specs/Words.antt")
            new = antt(old, own)
        elif p.endswith(".rt"):
            new = rattle(old, os.path.basename(p) in ("lib.rt", "main.rt"))
        else:
            new = page(old)
        if new != old:
            with open(p, "w", encoding="utf-8") as f:
                f.write(new)


main()

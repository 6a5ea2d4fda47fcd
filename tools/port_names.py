#!/usr/bin/env python3
"""Spells this repository's own definitions and lemmas in snake case, as today's Rattle spells its library, after port.py did the library's.

usage: python3 tools/port_names.py [--check]     at the top of a checkout, once, right after port.py

A name turns if one of its parts, which dashes join, is in lower camel case, as `perSpan`, `natAbs-add` or `addP-zero`. It turns in every .antt, .rt and .edit file but for strings; types,
modules, dashes and what is in snake case already stay. `--check` writes nothing. It stops where two names would fall together, where a name is imported from outside the repository, or where the new
name stands already in a file that has the old one.
"""

import re
import sys
from pathlib import Path

ROOT = Path(__file__).resolve().parent.parent
WORD = re.compile(r"[A-Za-z0-9_'\u2080-\u2089\u2115\u2124-]+")
CAMEL = re.compile(r"(?:^|(?<=-))[a-z][a-z0-9]*(?:_[a-z0-9]+)*[A-Z][A-Za-z0-9]*")
# The library's words that stand inside the repository's own names, as the library spells them now.
LIBRARY = {"getD": "get_or"}
# Lemmas that would have their function's name get `_lem`.
LEMMAS = {
    "crates/edit/proofs/Rows.antt": "plan_after",
    "crates/edit/proofs/Passed.antt": "plan_after",
    "crates/file_list/proofs/OneSpan.antt": "one_span",
    "crates/mirror/proofs/Cuts.antt": "from_zero",
}
STRING = re.compile(r'"(?:[^"\\\n]|\\.)*"')
IMPORT = re.compile(r"\buse (\S+?)\.\{([^}]*)\}")


def snake(part):
    word = part.group(0)
    if word in LIBRARY:
        return LIBRARY[word]
    word = re.sub(r"(?<=[a-z0-9])[A-Z]+(?=[A-Z][a-z])|(?<=[a-z0-9])[A-Z]", lambda m: "_" + m[0].lower(), word)
    return re.sub(r"[A-Z]", lambda m: "_" + m[0].lower(), word)


def spelled(word):
    return CAMEL.sub(snake, word)


def turned(text, keep_strings):
    """A file's text with each name turned; quoted text stays."""
    def by_words(part):
        return WORD.sub(lambda m: spelled(m[0]), part)
    if not keep_strings:
        return by_words(text)
    out, at = [], 0
    for quoted in STRING.finditer(text):
        out += [by_words(text[at:quoted.start()]), quoted.group(0)]
        at = quoted.end()
    return "".join(out + [by_words(text[at:])])


def files():
    for kind in ("rt", "antt", "edit"):
        for file in sorted((ROOT / "crates").rglob(f"*.{kind}")):
            if "out" not in file.relative_to(ROOT / "crates").parts[1:2]:
                yield file


def read(file):
    """A file's text, in which a lemma that would get its function's name has another."""
    lemma = LEMMAS.get(str(file.relative_to(ROOT)))
    text = file.read_text(encoding="utf-8")
    return re.sub(rf"(?<![\w.-]){lemma}(?![\w-])", f"{lemma}_lem", text) if lemma else text


def main():
    met, trouble, changed = {}, [], 0
    before = {file: file.read_text(encoding="utf-8") for file in files()}
    texts = {file: read(file) for file in before}
    for file, text in texts.items():
        words = set(WORD.findall(STRING.sub("", text)))
        for word in words:
            new = spelled(word)
            if new == word:
                continue
            if met.setdefault(new, word) != word:
                trouble.append(f"{file}: {word} and {met[new]} fall together")
            # A function of src/ may have the name of what its contract says: no clause can name a function. A function's own proof names it so too.
            if new in words and file.suffix == ".antt" and file.name != "Proof.antt" and not re.search(rf"proofs\.[\w.+]*{new}\b", text):
                trouble.append(f"{file}: {new} stands beside {word}")
        for path, names in IMPORT.findall(text):
            if file.suffix != ".edit" and not path.startswith("Rattle."):
                trouble += [f"{file}: {name} is imported from {path}" for name in WORD.findall(names) if spelled(name) != name]
    if trouble:
        print("\n".join(trouble))
    if "--check" in sys.argv or trouble:
        print(len(met), "names;", len(trouble), "places in doubt")
        sys.exit(bool(trouble))
    for file, text in texts.items():
        new = turned(text, True)
        if new != before[file]:
            file.write_text(new, encoding="utf-8")
            changed += 1
    print(len(met), "names turned in", changed, "files")


main()

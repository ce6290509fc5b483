#!/usr/bin/env python3
"""Spells the repository's own definitions and lemmas as Rattle does: words in snake case, types and modules in camel case.

usage: respell.py [--check]      at the top of the repository, behind the kit's port.py

    isOver, drop-at, Its-port  ->  is_over, drop_at, ItsPort

It reads which names crates/*/specs and crates/*/proofs declare, and turns those in .antt files and in the clauses of .rt files. A name that a file
takes from the library stays there as the library has it. A lemma that would get the name of a definition of the same file ends in _lem.
Functions, exported names, strings and comments' words stay. --check writes nothing and prints the names that would fall together.
"""
import collections
import glob
import os
import re
import sys

NAME = r"[^\s(){}.;,@\"«»\[\]\\:]+"
TOKEN = re.compile(r"--[^\n]*|//[^\n]*|\"(?:[^\"\\\n]|\\.)*\"|«[^»\n]*»|" + NAME)
DECLARED = re.compile(r"^\s*((?:(?:unfoldable|abbrev|pub|data|record)\s+)*)(" + NAME + r")\s*(?:[({].*)?:(?:\s|$)")
NO_NAME = {"let", "use", "module", "where", "in", "λ", "pub", "abbrev", "data", "record"}
# Fields that read better under a name of their own, by crate.
FIELDS = {
    "both_ends": {"all_sent_lem": "requests_gone"},
    "proxy": {"answer_number_lem": "answering_number"},
    "raw_tunnel": {"answer_number_lem": "answering_number"},
    "lent_tunnel": {"answer_number_lem": "answering_number"},
    "proxy_url_route": {"no_proxy_lem": "none_given"},
    "proxy_url": {it + "_lem": it for it in ("local_dns", "proxy_auth", "user_len", "password_len", "host_at", "host_len")},
}
# Lemmas that port.py gave the spelling of a definition beside them.
TAKEN = {"at_first", "digits_from", "in_two", "is_name", "kept_by", "open_told", "text_in", "at_stage"}


def read(path):
    with open(path, encoding="utf-8") as it:
        return it.read()


def snake(name):
    if re.match("[A-Z]", name):
        return re.sub(r"-([a-z])", lambda it: it[1].upper(), name)
    name = re.sub(r"(?<=[a-z0-9'])(?=[A-Z])", "_", name)
    return re.sub("[A-Z]", lambda it: it[0].lower(), name).replace("-", "_")


def files():
    antt = [it for part in ("specs", "proofs") for it in sorted(glob.glob(f"crates/*/{part}/**/*.antt", recursive=True))]
    return antt, sorted(glob.glob("crates/*/src/**/*.rt", recursive=True))


def declared(texts):
    """The names that files declare; not the answers of a function's proof, whose names are Rattle's."""
    names = collections.defaultdict(set)
    for path, text in texts.items():
        for line in text.split("\n"):
            found = DECLARED.match(line)
            if found and found[2] not in NO_NAME and not re.search(r": tie\.(Need|invariant|decreases)", line):
                names[found[2]].add(path)
    return names


def borrowed(text, crates):
    """The names that a file takes from the library, and its names for modules of the library."""
    names, modules = set(), set()
    for found in re.finditer(r"^\s*(?:pub |ghost )*use ([\w.◌'-]+?)(?:\.\{([^}]*)\})?(?: as (" + NAME + r"))?;?$", text, re.M):
        own = re.match(r"Rattle\.(\w+)", found[1])
        if own and own[1] in crates:
            continue
        names |= {word for it in (found[2] or "").split(",") for word in it.split()}
        if not found[2]:
            modules.add(found[3] or found[1].split(".")[-1])
    return names, modules


def main():
    check = "--check" in sys.argv[1:]
    crates = {os.path.basename(it) for it in glob.glob("crates/*")}
    antt, sources = files()
    texts = {it: read(it) for it in antt}
    ours = {it: text for it, text in texts.items() if "_edit_" not in os.path.basename(it)}
    own = declared(ours)
    turned = {it: snake(it) for it in own if snake(it) != it}
    together = collections.defaultdict(set)
    for path, text in ours.items():
        words = {it for it in TOKEN.findall(text) if not it.startswith("--")}
        seen = collections.defaultdict(set)
        for word in words & set(turned):
            seen[turned[word]].add(word)
        for word, olds in seen.items():
            if len(olds) > 1 or word in words:
                together[word] |= olds
    for word, olds in sorted(together.items()):
        lemmas = {it for it in olds if "-" in it}
        for it in lemmas:
            turned[it] = word + "_lem"
        rest = olds - lemmas
        if check:
            print(word, sorted(lemmas), sorted(rest), "taken" if word in TAKEN else "")
    for word in TAKEN & set(own):
        turned[word] = word + "_lem"
    texts.update({it: read(it) for it in sources})
    changed = 0
    for path, text in texts.items():
        names, modules = borrowed(text, crates)
        local = {it for it in TAKEN if re.search(rf"^\s*(?:pub )?{it} :", text, re.M) or re.search(rf"use Rattle\.[\w.]*\.\{{[^}}]*\b{it}\b", text)}
        rust = path.endswith(".rt")

        def turn(found):
            word = found[0]
            if word[:2] == "--":
                return re.sub(r"[a-z][a-z0-9]*(?:[A-Z][a-z0-9]*)+", lambda it: turned.get(it[0], it[0]), word)
            if word[:2] == "//":
                return re.sub(r"`([^`\s]+)`", lambda it: f"`{turned.get(it[1], it[1])}`", word)
            if word not in turned or word in names or word[0] == '"':
                return word
            before = re.search(r"([^\s(){};,.]+)\.$", text[max(0, found.start() - 60):found.start()])
            if before and before[1] in modules:
                return word
            if word in TAKEN and (word not in local or rust or text[found.start() - 1] == "."):
                return word
            if rust and re.fullmatch(r"[a-z0-9_]+", word):
                return word
            return turned[word]

        def own_field(found):
            return FIELDS.get(path.split("/")[1], {}).get(found[0], found[0])

        new = re.sub(r"\w+_lem\b", own_field, TOKEN.sub(turn, text))
        if new != text:
            changed += 1
            if not check:
                with open(path, "w", encoding="utf-8") as it:
                    it.write(new)
    print(f"{len(turned)} names, {changed} files")


main()

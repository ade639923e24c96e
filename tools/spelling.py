#!/usr/bin/env python3
"""Spells this repository's own definitions and lemmas as words in snake case, and its own types in camel case.

usage: python3 tools/spelling.py            at the top of the repository, once, after port.py
       python3 tools/spelling.py --names    only prints the names that it would change, and those that fall together

A name counts where a file of specs/, or of proofs/ outside a function's own proof, declares it. It is changed in those files, in the
proofs of functions, in the clauses of the sources, in the must-fail edits and between backticks in the pages. A file in which the
name comes from elsewhere keeps it there. Functions of src/, exported names, strings, inputs and outputs are not touched.

Our own choice by a test, `if◌then◌else◌`, is `choose◌then◌else◌`: the gate keeps the first name for that of the library.
"""

import os
import re
import sys

# A token of antt: what no space, bracket or mark of a path ends.
TOKEN = re.compile(r"[^\s(){}\[\];,.\"`|]+")
SIGNATURE = re.compile(r"^\s*(?:(?:abbrev|unfoldable|pub) )*([A-Za-z][^\s(){}\[\];,.:\"]*) :")
GIVEN = re.compile(r"^\s*(?:(?:abbrev|unfoldable|pub) )*([A-Za-z][^\s(){}\[\];,.:\"]*(?: [A-Za-z][^\s(){}\[\];,.:\"]*)+) :")
HEADS = re.compile(r"^\s*(?:(?:abbrev|unfoldable|pub) )*(?:data|record) ([^\s(){}\[\];,.:\"]+)")
# Names that would fall together with another, a function or a variable: what they are called in place of the words of the old name.
OTHERWISE = {
    "all-bindings": "all_bindings_law",
    "arityOf": "arity_of_spec",
    "arrow-from": "arrow_from_law",
    "arrowsOf": "arrows_of_spec",
    "base-in": "base_in_law",
    "binding-case": "binding_case_law",
    "blockIn": "block_in_spec",
    "broadBindings": "broad_bindings_spec",
    "bytes-of": "bytes_of_law",
    "count-in": "count_in_law",
    "falls-in": "falls_in_law",
    "few-types": "few_types_law",
    "goalOf": "goal_of_spec",
    "hashOf": "hash_of_spec",
    "head-by": "head_by_law",
    "is-kept": "is_kept_law",
    "last-kind": "last_kind_law",
    "manyOf": "many_of_spec",
    "memberOf": "member_of_spec",
    "members-at": "members_at_law",
    "middleBindings": "middle_bindings_spec",
    "modestBindings": "modest_bindings_spec",
    "nearOf": "near_of_spec",
    "next-in": "next_in_law",
    "noTargets": "no_targets_spec",
    "nodes-from": "nodes_from_law",
    "nodes-of": "nodes_of_law",
    "of-bindings": "of_bindings_law",
    "of-kind": "of_kind_law",
    "of-path": "of_path_law",
    "of-state": "of_state_law",
    "of-type": "of_type_law",
    "ofBindings": "of_bindings_spec",
    "ofPath": "of_path_spec",
    "ownIn": "own_in_spec",
    "part-of": "part_of_law",
    "path-case": "path_case_law",
    "payloadOf": "payload_of_spec",
    "place-in": "place_in_law",
    "plainBindings": "plain_bindings_spec",
    "presentOf": "present_of_spec",
    "read-record": "read_record_law",
    "row-at": "row_at_law",
    "sameBytes": "same_bytes_spec",
    "samePayload": "same_payload_spec",
    "sizeIn": "size_in_spec",
    "smallBindings": "small_bindings_spec",
    "sort-from": "sort_from_law",
    "sort-of": "sort_of_law",
    "start-held": "start_held_law",
    "stateCount": "state_count_spec",
    "statesOf": "states_of_spec",
    "targetsOf": "targets_of_spec",
    "term-at": "term_at_law",
    "tinyBindings": "tiny_bindings_spec",
    "wideBindings": "wide_bindings_spec",
    "words-for": "words_for_law",
    "words-in": "words_in_law",
    "wrongCell": "wrong_cell_spec",
    "wrongTargets": "wrong_targets_spec",
}


def files(root, ends):
    for folder, dirs, names in os.walk(root):
        dirs[:] = sorted(d for d in dirs if d not in ("out", ".git", "target"))
        for name in sorted(names):
            if name.endswith(ends):
                yield os.path.join(folder, name)


def read(path):
    with open(path, encoding="utf-8") as file:
        return file.read()


def is_own(path):
    """Whether a file of antt is one of specs/ or a file of lemmas, and no function's own proof."""
    if os.path.basename(path) not in ("Proof.antt", "Answers.antt", "Invariants.antt"):
        return True
    return os.path.basename(os.path.dirname(path)) in ("specs", "proofs")


def spelled(name):
    if name[0].isupper():
        if "-" not in name:
            return name
        return "".join(part[:1].upper() + part[1:] for part in name.split("-"))
    name = name.replace("-", "_")
    # twice, for two capitals side by side
    for _ in range(2):
        name = re.sub(r"(?<=[a-z0-9])([A-Z])", lambda m: "_" + m.group(1).lower(), name)
    return name.replace("′", "'")


def without_comments(text):
    return re.sub(r"(?m)(?:^|(?<=\s))--.*$", "", text)


def declared(root):
    names = set()
    for path in files(os.path.join(root, "crates"), ".antt"):
        if not is_own(path):
            continue
        for line in without_comments(read(path)).splitlines():
            for form in (SIGNATURE, GIVEN, HEADS):
                found = form.match(line)
                if found:
                    names.update(found.group(1).split())
    return names


def imported(text):
    """The names that a file imports from outside this repository's crates."""
    names = set()
    own = OWN
    for path, listed in re.findall(r"use ([^\s{]+?)\.?\{([^}]*)\}", text):
        head = re.match(r"Rattle[.·](\w+)", path)
        if not (head and head.group(1) in own):
            names.update(word.strip().split(" as ")[0] for word in listed.split(","))
    return names


def main(argv):
    global OWN
    root = "."
    OWN = {name for name in os.listdir("crates")}
    changes = {}
    for name in declared(root):
        new = OTHERWISE.get(name, spelled(name))
        if new != name:
            changes[name] = new
    used = {}
    for path in files("crates", ".antt"):
        for token in TOKEN.findall(without_comments(read(path))):
            used.setdefault(token, set()).add(path)
    words = {}
    for path in files("crates", ".rt"):
        for token in re.findall(r"[A-Za-z_][A-Za-z0-9_]*", re.sub(r"//.*", "", read(path))):
            words.setdefault(token, set()).add(path)
    targets = {}
    for name, new in sorted(changes.items()):
        targets.setdefault(new, []).append(name)
    if argv == ["--names"]:
        for new, names in sorted(targets.items()):
            together = len(names) > 1
            clash = sorted(used.get(new, ()))
            rust = sorted(words.get(new, ()))
            where = sorted({p for n in names for p in used.get(n, ())} & set(clash))
            inrt = sorted({p for n in names for p in words.get(n, ())} & set(rust))
            if together or clash or rust:
                print(" ".join(names), "->", new, "TOGETHER" if together else "", "antt:%d same file:%d" % (len(clash), len(where)) if clash else "", "rt: " + " ".join(rust[:3]) if rust else "", "SAME RT " + " ".join(inrt) if inrt else "")
        print(len(changes))
        return 0

    def turn(text, kept, code):
        def one(found):
            token = found.group(0)
            if token == "if" and code == "antt":
                return "choose"
            if token == "if◌then◌else◌":
                return "choose◌then◌else◌"
            if token in kept:
                return token
            return changes.get(token, token)

        if code == "rt":
            if "if◌then◌else◌" in text:
                text = text.replace("if◌then◌else◌", "choose◌then◌else◌")
                text = re.sub(r"(?m)^( *(?:ensures|requires) .*?)\bif\b", r"\1choose", text)
            return re.sub(r"[A-Za-z_][A-Za-z0-9_']*(?:-[a-z][A-Za-z0-9_']*)*", one, text)
        return TOKEN.sub(one, text)

    def lines(text, kept):
        out = []
        for line in text.split("\n"):
            found = re.search(r"(?:^|(?<=\s))--", line)
            if found:
                at = found.start()
                said = re.sub(r"`[^`]*`", lambda m: turn(m.group(0), kept, "antt"), line[at:])
                said = re.sub(r"\b[a-z]+[A-Z]\w*", lambda m: changes.get(m.group(0), m.group(0)), said)
                out.append(turn(line[:at], kept, "antt") + said)
            else:
                out.append(turn(line, kept, "antt"))
        return "\n".join(out)

    done = 0
    for path in list(files("crates", (".antt", ".rt", ".edit"))) + list(files(".", ".md")):
        text = read(path)
        if path.endswith(".antt"):
            new = lines(text, imported(text))
        elif path.endswith(".md"):
            new = re.sub(r"`[^`\n]*`", lambda m: turn(m.group(0), set(), "page"), text)
        elif path.endswith(".edit") and ".antt" in text.split("\n")[0]:
            new = turn(text, set(), "antt")
        else:
            kept = imported(text) | set()
            new = turn(text, {n for n in changes if "-" in n} | kept, "rt")
        if new != text:
            with open(path, "w", encoding="utf-8") as file:
                file.write(new)
            done += 1
    print(f"{len(changes)} names, {done} files")
    return 0


if __name__ == "__main__":
    raise SystemExit(main(sys.argv[1:]))

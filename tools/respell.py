#!/usr/bin/env python3
"""Spells the project's own definitions and lemmas in snake case: `ruleKind` is rule_kind, `few-nodes` is few_nodes.

usage: python3 tools/respell.py        at the top of the repository, once, after the toolchain's port.py

A name is turned where it stands as a whole word: in specs/ and proofs/ (code, and comments' camel case), in the clauses and `ghost use` lines of
src/, in must-fail edits and in the code spans of the documents. Types, modules, functions of src/, strings and names of libraries keep their spelling.
Where two names would fall together, TOGETHER says what the second one is called, and in which files.
"""

import glob
import re

CRATES = "reader machine automaton plays game capi listing readings airtable".split()
WORD = re.compile(r"[^\s(){}\[\].;,@\"«»`:]+")
USE = re.compile(r"(?m)^(?:pub |ghost )?use (\S+?)(?:\.\{([^}]*)\})?(?: as (\S+?))?;?[ \t]*$")
OWN = re.compile(r"Rattle[.·](?:" + "|".join(CRATES) + r")\b")

# old name, file pattern, new name: the name would else be that of another definition that the file, or one that uses it, names too
TOGETHER = [
    ("short-automaton", "crates/game/proofs/RuleCallLaws.antt", "automaton_is_short"),
    ("nodes-of", "crates/reader/", "nodes_of_lem"),
    ("with-unary", "crates/reader/", "with_unary_lem"),
    ("with-binary", "crates/reader/", "with_binary_lem"),
    ("operand-code", "crates/reader/", "operand_code_lem"),
    ("formula-of", "crates/reader/", "formula_of_lem"),
    ("input-size", "crates/listing/", "input_size_lem"),
    ("output-size", "crates/listing/", "output_size_lem"),
    ("line-length", "crates/listing/", "line_length_lem"),
    ("has-texts", "crates/listing/", "has_texts_lem"),
    ("has-mode", "crates/listing/", "has_mode_lem"),
    ("system-byte", "crates/game/proofs/OneAnswer.antt", "system_byte_lem"),
    ("environment-byte", "crates/game/proofs/OneAnswer.antt", "environment_byte_lem"),
    ("answer-number", "crates/automaton/", "answer_number_lem"),
    ("answer-place", "crates/automaton/", "answer_place_lem"),
    ("none_below", "crates/game/proofs/", "none_below_lem"),
    ("ranked-below", "crates/game/proofs/", "ranked_below_lem"),
    ("output-of", "crates/capi/", "output_of_lem"),
    ("same_kind", "crates/readings/proofs/TreeLaws.antt", "same_kind_lem"),
    ("same_bytes", "crates/readings/proofs/TreeLaws.antt", "same_bytes_lem"),
]


def snake(name):
    return re.sub(r"(?<=[a-z0-9])(?=[A-Z])", "_", name).replace("-", "_").lower() if name[0].islower() else name.replace("-", "_")


def is_camel(name):
    return re.fullmatch(r"[a-z][a-z0-9_]*[A-Z][A-Za-z0-9_']*", name) is not None


def is_dashed(name):
    return re.search(r"\w-\w", name) is not None


def code_of(text):
    return re.sub(r"--[^\n]*", "", text)


def declared(files):
    """The odd words of the texts that are not a library's."""
    own, theirs = set(), set()
    for f in files:
        text = code_of(open(f, encoding="utf-8").read())
        for m in USE.finditer(text):
            if not OWN.match(m.group(1)):
                for item in (m.group(2) or "").split(","):
                    theirs |= set(item.split(" as "))
        own |= set(WORD.findall(USE.sub("", text)))
    theirs = {t.strip() for t in theirs}
    return {w for w in own - theirs if w[0].isalpha() and (is_dashed(w) or is_camel(w)) and w not in ("OneOf",)}


def turned(names, path):
    here = {}
    for old, where, new in TOGETHER:
        if path.startswith(where):
            here[old] = new

    def of(word, dashed):
        if word in here and (dashed or not is_dashed(word)):
            return here[word]
        if word in names and (dashed or not is_dashed(word)):
            return snake(word)
        return word

    return of


def words(text, of, dashed):
    return WORD.sub(lambda m: of(m.group(0), dashed), text)


def antt(text, of):
    out = []
    for line in text.split("\n"):
        code, mark, note = line.partition("--")
        if mark and code and not code[-1].isspace():
            code, mark, note = line, "", ""
        note = re.sub(r"`[^`]*`", lambda m: words(m.group(0), of, True), note)
        out.append(words(code, of, True) + mark + words(note, of, False))
    return "\n".join(out)


def rt(text, of):
    out = []
    for line in text.split("\n"):
        is_clause = re.match(r"\s*(ghost use|requires|ensures)\b", line) is not None
        if "\"" in line and not is_clause:
            out.append(line)
            continue
        out.append(words(line, of, is_clause))
    return "\n".join(out)


def md(text, of):
    parts = re.split(r"(```.*?```|`[^`\n]*`)", text, flags=re.S)
    return "".join(words(p, of, True) if p.startswith("`") and not p.startswith("`compare:") else p for p in parts)


def of_documents(names, texts):
    """Also the names that port.py has turned already: the texts have the new spelling alone."""
    there = set()
    for f in texts:
        there |= set(WORD.findall(code_of(open(f, encoding="utf-8").read())))

    def of(word, dashed):
        if word[0].isalpha() and (is_dashed(word) or is_camel(word)) and (word in names or (word not in there and snake(word) in there)):
            return snake(word)
        return word

    return of


def main():
    texts = [f for f in glob.glob("crates/*/specs/**/*.antt", recursive=True) + glob.glob("crates/*/proofs/*.antt")]
    names = declared(texts)
    for pattern, how in (
        ("crates/*/specs/**/*.antt", antt),
        ("crates/*/proofs/**/*.antt", antt),
        ("crates/*/src/**/*.rt", rt),
        ("crates/*/must-fail/*.edit", lambda t, of: words(t, of, True)),
        ("*.md", md),
        ("docs/*.md", md),
        ("examples/*.md", md),
        ("tests/*.md", md),
        ("bench/*.md", md),
    ):
        for f in sorted(glob.glob(pattern, recursive=True)):
            text = open(f, encoding="utf-8").read()
            new = how(text, of_documents(names, texts) if how is md else turned(names, f))
            if new != text:
                open(f, "w", encoding="utf-8").write(new)


if __name__ == "__main__":
    main()

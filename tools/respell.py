#!/usr/bin/env python3
"""Brings the repository's own names to the spelling of today's Rattle; run once, after port.py, at the top.

    tools/respell.py          rewrites crates/ and the documents, and prints old and new names

Words (functions, lemmas, fields, variables) are in snake case. A dash stays in a lemma's name only where it joins two functions
(`length-slots`: the length of `slots`); any other word hangs on by `_` (`fresh_exactly`). Types and modules keep their capitals.
Names of src/, of the standard library and of what Rattle makes for a proof keep their spelling.
"""
import collections
import os
import re

NAME = r"[A-Za-z_][A-Za-z0-9_']*(?:-[A-Za-z0-9_']+)*"
TOKEN = re.compile(r"(?<![A-Za-z0-9_'-])" + NAME)
MARKS = r"(?:(?:pub|abbrev|unfoldable|pattern|axiom|field)\s+)*"
DECLARED = re.compile(r"(?:^\s*" + MARKS + r"|[({]|\blet |\bin |λ )(" + NAME + r"(?:\s+" + NAME + r")*)\s+:\s", re.M)
DEFINED = re.compile(r"^\s*(?:(?:abbrev|unfoldable) pub|pub (?:abbrev|unfoldable)) (\w+) :", re.M)
RECORD = re.compile(r"record[^\n]*where\n((?:[ \t]+[^\n]*\n|\n)+)")
FIELD = re.compile(r"^\s+" + MARKS + "(" + NAME + r")\s+:", re.M)
USED = re.compile(r"^\s*(?:ghost\s+)?(?:pub\s+)?use\s+([^{;\n]+)(?:\{([^}]*)\})?", re.M)
LIBRARY = re.compile(r"(Rattle|borrow|denote|lib|logic|mathlib|native|Prim)\.")
# what the answers to a function's goals are called is for Rattle to say: as walks of the code, and as answers by name
WALKED = re.compile(r"^" + MARKS + "(" + NAME + r")\s*:\s*(?:\n\s*)?[^\n]*(?:tie\.|statement)", re.M)
ANSWERED = re.compile(r"^" + MARKS + "(" + NAME + r")\s*:\s*goal\.", re.M)
STATE = "director/specs/State.antt"

# words of the standard library that a lemma's name may be joined with
WORDS = set("add and append cons cond count div drop eq eqb le leb length lt ltb map max min mod mul nil not or replicate set sub suc sum take zero get_or".split())

# lemmas whose function's name, in snake case, is theirs
LEMMAS = {"call_fits": "callFits", "left_by": "leftBy", "one_more": "oneMore"}


def files(*ends):
    for folder, dirs, names in os.walk("crates"):
        dirs[:] = sorted(d for d in dirs if d != "out")
        for name in sorted(names):
            if name.endswith(ends):
                yield os.path.join(folder, name)


def read(path):
    with open(path, encoding="utf-8") as f:
        return f.read()


def put(path, old, new):
    if new != old:
        with open(path, "w", encoding="utf-8") as f:
            f.write(new)


def plain(text):
    return re.sub(r"--.*", "", text)


def code_and_comment(line):
    return line.partition("--") if re.search(r"(^|\s)--", line) else (line, "", "")


def snake(word):
    word = re.sub(r"([a-z0-9])([A-Z])", r"\1_\2", word)
    return re.sub(r"([A-Z])([A-Z][a-z])", r"\1_\2", word).lower()


def is_camel(word):
    return word[0].islower() and re.search(r"[a-z0-9][A-Z]", word) is not None and not re.fullmatch(r"x[0-9A-F]+", word)


def imported():
    """The names that `use` lines bring in: of the repository's crates, and of the library."""
    crates = {line.split(":")[0].split()[0] for line in read("crates.txt").splitlines() if line and not line.startswith("#")}
    own, foreign = set(), set()
    for path in files(".antt", ".rt"):
        for where, names in USED.findall(read(path)):
            where = where.strip().strip(".")
            if not LIBRARY.match(where) or where.endswith((".Goals", ".Given")):
                continue
            parts = where.split(".")
            brought = own if parts[0] == "Rattle" and parts[1] in crates else foreign
            brought.update(name.split(" as ")[0].strip() for name in (names or "").split(","))
    return own, foreign


def named_in(path):
    """The repository's names in a file of antt: all words of it, but of a function's proof only those that it declares."""
    text = plain(read(path))
    if not path.endswith(("Proof.antt", "Answers.antt", "Invariants.antt")):
        return set(TOKEN.findall(text))
    answers = set((WALKED if path.endswith("Proof.antt") else ANSWERED).findall(text))
    names = {name for group in DECLARED.findall(text) for name in group.split()}
    return {name for name in names if name not in answers and not re.match(r"(then|else)-", name)}


def functions():
    """Names that stand for functions: those of src/, and the definitions of specs/ in snake case."""
    of_source = {name for path in files(".rt") for name in re.findall(r"\bfn (\w+)", read(path))}
    defined = {snake(name) for path in files(".antt") if "/specs/" in path for name in DEFINED.findall(plain(read(path)))}
    return of_source, defined


def fields(folder):
    return {name for path in files(".antt") if folder in path for block in RECORD.findall(plain(read(path))) for name in FIELD.findall(block)}


def joined(word, known, plain_fields):
    """A dash between two functions' names stays in a lemma's name; any other becomes `_`."""
    parts = [snake(part) if is_camel(part) else part for part in word.split("-")]
    if len(parts) == 2 and set(parts) <= known and word not in plain_fields:
        return "-".join(parts)
    return "_".join(parts)


def turned_names():
    """Old names and new ones. What falls together is printed."""
    own, foreign = imported()
    for path in files(".antt"):
        own |= named_in(path)
    own = {word for word in own if word and word not in foreign and not word.startswith("goal")}
    of_source, defined = functions()
    plain_fields = fields("/specs/")
    known = of_source | defined | WORDS
    words = {snake(word) if is_camel(word) else word for word in own if "-" not in word} | of_source
    turned = {word: snake(word) for word in own if "-" not in word and is_camel(word)}
    for word in (word for word in own if "-" in word):
        new = joined(word, known, plain_fields)
        # a lemma that would have its function's name ends in `_lem`
        turned[word] = new + "_lem" if new in words and word not in plain_fields else new
    turned.update({lemma: lemma + "_lem" for lemma, function in LEMMAS.items() if function in own})
    turned = {old: new for old, new in turned.items() if new != old}
    tell_together(turned, own, foreign)
    return turned


def tell_together(turned, own, foreign):
    taken = collections.defaultdict(set)
    for old, new in turned.items():
        taken[new].add(old)
    for new, olds in sorted(taken.items()):
        if len(olds) > 1 or new in own and new not in turned or new in foreign:
            print("together: %s: %s" % (new, ", ".join(sorted(olds))))


def turn(text, turned, kept_paths=None):
    """The text with the new names. In a walk of the code a path's names with a dash are Rattle's (`c.if-a-b.true`), but for the fields given."""

    def one(match):
        word = match.group(0)
        if kept_paths is not None and "-" in word and text[match.start() - 1:match.start()] == "." and word not in kept_paths:
            return word
        return turned.get(word, word)

    return TOKEN.sub(one, text)


def turn_camel(text, turned):
    """In prose a word with a dash may be plain English: so only what is in camel case."""
    return TOKEN.sub(lambda match: turned.get(match.group(0), match.group(0)) if is_camel(match.group(0)) else match.group(0), text)


def turn_quoted(text, turned):
    return re.sub(r"`[^`\n]*`", lambda match: turn(match.group(0), turned), text)


def respell_antt(turned):
    all_fields = fields("")
    for path in files(".antt"):
        kept_paths = all_fields if path.endswith("Proof.antt") else None
        old = read(path)
        lines = []
        for line in old.split("\n"):
            code, dash, comment = code_and_comment(line)
            lines.append(turn(code, turned, kept_paths) + dash + turn_quoted(turn_camel(comment, turned), turned))
        put(path, old, "\n".join(lines))


def respell_sources(turned):
    """Sources and must-fail edits: their clauses and imports, and names in camel case elsewhere."""
    for path in files(".rt", ".edit"):
        old = read(path)
        lines = []
        for line in old.split("\n"):
            cites = re.search(r"ghost use|requires|ensures|⌜", line) or path.endswith(".edit") and re.match(r"(old|new): ", line)
            lines.append((turn if cites else turn_camel)(line, turned))
        put(path, old, "\n".join(lines))


def respell_result():
    """The definition `result`, which a clause's `result` hides, becomes `result_of`."""
    for path in files(".antt", ".rt"):
        old = read(path)
        if not re.search(r"director\.specs\.State\.\{[^}]*\bresult\b", old) and not path.endswith(STATE):
            continue
        new = re.sub(r"(director\.specs\.State\.\{[^}]*)\bresult\b", r"\1result_of", old)
        if path.endswith(".rt"):
            new = re.sub(r"(?<![\w.])result (?=\(|r )", "result_of ", new)
        else:
            lines = [code_and_comment(line) for line in new.split("\n")]
            new = "\n".join(re.sub(r"(?<![\w.'-])result(?![\w'-])(?! =)", "result_of", code) + dash + comment for code, dash, comment in lines)
        put(path, old, new)


def respell_pages(turned):
    pages = [os.path.join("docs", name) for name in sorted(os.listdir("docs")) if name.endswith(".md") and not name.startswith("PORT")]
    for path in ["README.md"] + pages:
        old = read(path)
        put(path, old, turn_quoted(old, turned))


def main():
    turned = turned_names()
    respell_antt(turned)
    respell_sources(turned)
    respell_result()
    respell_pages(turned)
    for old, new in sorted(turned.items()):
        print("%s -> %s" % (old, new))


main()

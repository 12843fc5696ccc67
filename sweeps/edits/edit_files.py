"""The edits of sweeps/edits, in one file for each crate and kind, KIND/CRATE.edits, and what the prover says of one.

In a file of edits each begins with a line 'edit: NAME', at the top of the file or behind an empty line. All lines up to the next one are its text, without the empty
line before that. Nothing else in such a file is empty. The text of an edit has lines 'file: PATH', each before pairs of lines 'old: TEXT' and 'new: TEXT'; the old
text stands exactly once in that file. Its other lines say what it is, or name what has to refuse it. Those of `wrong_bodies` with a line 'function: PATH' are the
edits of the gate, which `gate` tries on that function.
"""

import os
import re

ENDING = ".edits"
HERE = os.path.dirname(os.path.abspath(__file__))
TOP = os.path.dirname(os.path.dirname(HERE))
ITEM = re.compile(r"^ *(?:pub(?:\([a-z]+\))? )?(?:const )?(fn|const|struct|enum|type|trait|impl|use|mod)\b *(\w*)", re.M)
VERDICT = re.compile(r"^(?:fn|impl|trait|struct|enum) (\S+): (no proof|not proved)(.*)", re.M)
UNNAMED = re.compile(r"is not in scope|is a name of Rattle's own|has no field|has no `|is no name|declarations? that depends? on")


def read(path):
    with open(path, encoding="utf-8") as file:
        return file.read()


def write(path, text):
    with open(path, "w", encoding="utf-8") as file:
        file.write(text)


def pairs_of(text):
    """The pairs of texts of an edit, each with its file, and its other lines."""
    pairs, others, path, old = [], [], None, None
    for line in text.split("\n"):
        if line.startswith("file: "):
            path = line[len("file: "):].strip()
        elif line.startswith("old: "):
            old = line[len("old: "):]
        elif line.startswith("new:"):
            pairs.append((path, old, line[len("new: "):]))
        else:
            others.append(line)
    return pairs, others


def edits_in(text):
    """Name and text of each edit of a file of edits."""
    parts = f"\n\n{text}".split("\n\nedit: ")
    if parts[0].strip():
        raise ValueError("a file of edits begins with 'edit: NAME'")
    return [(name, lines.rstrip("\n")) for name, _, lines in (part.partition("\n") for part in parts[1:])]


def edits_of(kind, crate):
    """Name and text of each edit of a crate of this kind."""
    place = f"{HERE}/{kind}/{crate}{ENDING}"
    return edits_in(read(place)) if os.path.isfile(place) else []


def edits_of_gate(crate):
    """Name and text of each edit of a crate that the gate tries."""
    return [it for it in edits_of("wrong_bodies", crate) if re.search("^function: ", it[1], re.M)]


def crates_with_edits(kind):
    """The crates that have edits of a kind."""
    return sorted(it.removesuffix(ENDING) for it in os.listdir(f"{HERE}/{kind}") if it.endswith(ENDING))


class Edit:
    """An edit: its pairs of texts by file, below a folder, and its other lines."""

    def __init__(self, crate, name, text, folder, is_of_gate):
        self.crate, self.name, self.folder, self.fault, self.is_of_gate = crate, f"{crate}/{name}", folder, None, is_of_gate
        self.pairs, self.others = pairs_of(text)
        try:
            self.texts()
        except (OSError, ValueError) as error:
            self.fault = str(error)

    def texts(self):
        """The texts of the files with this edit in them."""
        texts = {}
        for path, old, new in self.pairs:
            text = texts.get(path) or read(f"{self.folder}/{path}")
            if text.count(old) != 1:
                raise ValueError(f"an old text stands {text.count(old)} times in {path}")
            texts[path] = text.replace(old, new)
        return texts

    def functions(self):
        """The functions in whose bodies the old texts are, as (module, name): none if one text is in no body."""
        found = {function_at(self.crate, path, old, read(f"{self.folder}/{path}")) for path, old, _ in self.pairs}
        return set() if None in found else found


def function_at(crate, path, old, text):
    """The function in whose body the text is, as (module, name), or nothing."""
    items = list(ITEM.finditer(text, 0, max(text.find(old), 0)))
    if text.count(old) != 1 or ITEM.search(old) or "#[" in old or not items or items[-1][1] != "fn":
        return None
    parts = [it for it in path.removesuffix(".rt").split("/")[1:] if it not in ("lib", "main", "mod")]
    return "::".join([crate, *parts]), items[-1][2]


def texts_with(edits):
    """The texts of the files with all these edits in them, each where its old text is in the file without the others."""
    if len(edits) == 1:
        return edits[0].texts()
    texts = {}
    for path in {path for edit in edits for path, _, _ in edit.pairs}:
        text = read(f"{edits[0].folder}/{path}")
        places = [(text.index(old), old, new) for edit in edits for at, old, new in edit.pairs if at == path]
        for start, old, new in sorted(places, reverse=True):
            text = text[:start] + new + text[start + len(old):]
        texts[path] = text
    return texts


def refusals(said):
    """The functions that are not proved for reasons of their own, each with the kind of refusal, the reason and the errors in its proof."""
    found = []
    for name, how, why in VERDICT.findall(said):
        *parts, last = name.split("::")[1:]
        folder = "/".join(["proofs", *parts])
        errors = re.findall(rf"^(?:\./)?{re.escape(folder)}/(?:\+[^/]*|{re.escape(last)})/\S+: error: .*(?:\n  .*)*", said, re.M)
        own = "did not prove" in why or not all(map(UNNAMED.search, errors))
        if not re.search("it waits|which has no proof", why) and (own or "it calls" not in why):
            kind = "broken" if "does not cover this function" in why else "refused" if own or not errors else "refused by a name"
            why = re.sub(r": expected answers in \S+;", ":", why)
            reason = "; ".join([f"{name}: {how}{why}", *[" ".join(it.split())[:160] for it in errors[:2]]])
            found.append((name, kind, reason))
    return found

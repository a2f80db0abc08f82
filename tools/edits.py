"""Wrong bodies, several of which one check tries: which functions their edits change, and what a check says of these.

A function is proved over the contracts of those that it calls, whatever their bodies are. So edits of different functions
don't touch each other's proofs, and a function that is refused by itself, and not for one that it calls, is refused for its
own edit. Functions that call one another in a circle have one proof, and count as one. Of an edit of which a check says
neither this nor that nothing is known here."""

import os
import re

# The beginning of a function, how far it stands from the left, and whether constants may be made by it.
FUNCTION = re.compile(r"^( *)(?:pub(?:\(\w+\))? )?(const )?fn (\w+)", re.MULTILINE)
# The beginning of the methods of a type, or of a trait for one.
IMPL = re.compile(r"^impl(?:<.*?>)? (\w+)\S*( for )?", re.MULTILINE)
# The circle that a function is of, in the lines before it.
CIRCLE = re.compile(r"#\[cycle\((\w+)\)\]\n(?: *#.*\n)*\Z")
# What a check says of a function that isn't proved.
SAID = re.compile(r"fn (\S+): (not proved|no proof: .*)")
# That it isn't since one that it calls isn't.
MASKED = re.compile(r"no proof: (in `[^`]*`, of this cycle of calls: )?it calls ")
# A proof that names what an edit took away says little of the contract.
NAMES = re.compile(r"has no field|is not in scope|has no `|was not admitted")


class Edit:
    """The edit of a wrong body: its name, its pairs of texts by file, and the functions whose proofs it changes, or none of these
    where it changes something else."""

    def __init__(self, folder, name, text):
        self.name, self.pairs = name, []
        file, old = None, None
        for line in text.split("\n"):
            word, _, rest = line.partition(": ")
            if word == "file":
                file = rest
            elif word == "old":
                old = rest
            elif word == "new":
                self.pairs.append((file, old, rest))
        places = [functions_at(folder, file, old) for file, old, _ in self.pairs]
        self.functions = set().union(*places) if all(places) else set()

    def applied(self, folder, texts):
        """The texts of the files with this edit too, or none where an old text isn't there once."""
        texts = dict(texts)
        for file, old, new in self.pairs:
            text = texts.get(file) or read(folder, file)
            if text.count(old) != 1:
                return None
            texts[file] = text.replace(old, new)
        return texts

    def reason(self, crate, lines):
        """What a check that printed these lines refuses the edit for, or nothing where it doesn't say that it does."""
        refused = [it[1] for it in map(SAID.match, lines) if it and not MASKED.match(it[2])]
        mine = [it for it in refused if any(is_part(crate, it, function) for function in self.functions)]
        proofs = [re.escape(it.removeprefix(f"{crate}::").replace("::", "/")) for it in mine]
        told = [it for it in lines if re.match(rf"(note: )?(\./)?proofs/({'|'.join(proofs)})/\S+: error", it)] if mine else []
        if not mine or told and all(NAMES.search(it) for it in told):
            return None
        return f"{mine[0]} is not proved{': ' + told[0][:160] if told else ''}"


def read(folder, file):
    with open(f"{folder}/{file}", encoding="utf-8") as it:
        return it.read()


def functions_at(folder, file, old):
    """The function in which a text of the code stands, with all of its circle, each as its file, the type whose method it is, and its
    name; none where the text isn't there once, or stands in no function, in a method of a trait, or in one that constants are made by."""
    text = read(folder, file) if file.startswith("src/") and os.path.isfile(f"{folder}/{file}") else ""
    at = text.find(old)
    before = [it for it in FUNCTION.finditer(text) if it.start() <= at]
    if text.count(old) != 1 or not before:
        return set()
    end = re.compile(rf"^{before[-1][1]}}}$", re.MULTILINE).search(text, before[-1].end())
    owner = owner_of(text, before[-1])
    if before[-1][2] or owner is None or not end or end.start() < at:
        return set()
    circle = CIRCLE.search(text[: before[-1].start()])
    return circle_of(folder, circle[1]) if circle else {(file, owner, before[-1][3])}


def owner_of(text, function):
    """The type whose method a function is, which is empty where it is none; nothing where it is that of a trait."""
    block = [it for it in IMPL.finditer(text, 0, function.start())][-1:] if function[1] else []
    return "" if not function[1] else block[0][1] if block and not block[0][2] else None


def circle_of(folder, name):
    """The functions of a circle, each as its file, the type whose method it is, and its name."""
    found = set()
    for at, _, files in os.walk(f"{folder}/src"):
        for file in (os.path.relpath(f"{at}/{it}", folder) for it in files):
            text = read(folder, file)
            of_circle = [it for it in FUNCTION.finditer(text) if (circle := CIRCLE.search(text[: it.start()])) and circle[1] == name]
            found |= {(file, owner_of(text, it), it[3]) for it in of_circle}
    return found


def is_part(crate, said, function):
    """Whether a name that a check says is that of a function, or of a closure in it. A method's is that of its type, in whatever file
    it stands."""
    file, owner, name = function
    parts = [it for it in re.split(r"::|\+", said) if it != "fn"]
    if owner:
        return parts[0] == crate and (owner, name) in zip(parts, parts[1:])
    modules = file.removeprefix("src/").removesuffix(".rt").split("/")
    path = [crate, *(it for it in modules if it not in ("lib", "main")), name]
    return parts[: len(path)] == path


def together(folder, edits, most):
    """Some of the edits, at most so many, that change different functions, and the texts with all of them."""
    chosen, functions, texts = [], set(), {}
    for edit in edits:
        with_it = edit.applied(folder, texts) if edit.functions and not edit.functions & functions else None
        if with_it and len(chosen) < most:
            chosen.append(edit)
            functions |= edit.functions
            texts = with_it
    return chosen, texts

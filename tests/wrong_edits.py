"""What an edit says, and where the edits of a crate are. An edit is a mistake in the sources of a crate: lines
'file: PATH' (below the crate's folder) and then pairs of lines 'old: TEXT' and 'new: TEXT', each of one line. An edit
that the tests have to see has lines 'test: NAME' too.
"""
import os
import re

TOP = os.path.dirname(os.path.dirname(os.path.realpath(__file__)))
LINE = re.compile(r"(file|old|test): (.*)|(new):(?: (.*))?")
FUNCTION = re.compile(r"\s*(?:pub(?:\([a-z]+\))? )?(?:const )?fn (\w+)")
# What a proof file says where the edit took away what it names.
GONE = re.compile(r"(\./)?proofs/.*(has no field|is not in scope|has no `|was not admitted|declarations? that depends? on |: (record|module) `[^`]*`($| \(nearest))")


class BadEdit(Exception):
    """An edit that can't be applied or read."""


def crate_lines():
    """The lines of crates.txt, by the name of the crate."""
    with open(f"{TOP}/crates.txt", encoding="utf-8") as file:
        lines = [line for line in file if ":" in line and not line.startswith("#")]
    return {line.partition(":")[0].split()[0]: line for line in lines}


def libraries(line):
    """The libraries that a line of crates.txt names."""
    return line.partition(":")[2].split()


def needed_by(crate, lines):
    """The crate, and the libraries of this repository that it stands on."""
    found, names = set(), [crate]
    while names:
        name = names.pop()
        if name in lines and name not in found:
            found.add(name)
            names += libraries(lines[name])
    return found


def edits_in(folder):
    """The files of the edits in a folder."""
    names = sorted(os.listdir(folder)) if os.path.isdir(folder) else []
    return [f"{folder}/{name}" for name in names if name.endswith(".edit")]


def must_fail_of(crate):
    """The files of the crate's edits that the gate tries."""
    return edits_in(f"{TOP}/crates/{crate}/must-fail")


def refused_of(crate):
    """The files of the crate's edits that a clause refuses."""
    return must_fail_of(crate) + edits_in(f"{TOP}/tests/edits/{crate}")


def tested_of(crate):
    """The files of the crate's edits that the tests have to see."""
    return edits_in(f"{TOP}/tests/tested/{crate}")


def name_of(crate, edit):
    """What an edit is called."""
    return f"{crate}/{os.path.basename(edit).removesuffix('.edit')}"


def words_of(edit):
    """The lines of an edit: the word that each begins with, and its text."""
    with open(edit, encoding="utf-8") as file:
        lines = file.read().split("\n")
    words = []
    for line in lines:
        found = LINE.fullmatch(line)
        if found:
            words.append((found[1] or found[3], found[2] or found[4] or ""))
        elif line.strip():
            raise BadEdit(f"it has a line that isn't read: {line}")
    return words


def tests_of(edit):
    """The names of the tests that have to see an edit."""
    return [text.strip() for word, text in words_of(edit) if word == "test"]


def pairs_of(edit):
    """The pairs of an edit: a file, a text in it, and what takes its place."""
    path, old, pairs = None, None, []
    for word, text in words_of(edit):
        if word == "file":
            path = text.strip()
        elif word == "old" and path and old is None:
            old = text
        elif word == "new" and old:
            pairs.append((path, old, text))
            old = None
        elif word != "test":
            raise BadEdit(f"a line '{word}:' is out of place: {text}")
    if old is not None or not pairs:
        raise BadEdit("its last 'old:' line has no 'new:' line" if pairs or old else "it has no pair of 'old:' and 'new:'")
    return pairs


def changed_texts(edit, folder):
    """The texts of the files that an edit changes, and the functions in whose bodies it does: none for all."""
    return joined_texts([edit], folder)


def joined_texts(edits, folder):
    """As `changed_texts`, of several edits that are made in one copy."""
    texts, before, functions = {}, {}, []
    for path, old, new in [pair for edit in edits for pair in pairs_of(edit)]:
        if path not in texts:
            texts[path] = before[path] = text_of(f"{folder}/{path}", path)
        times = texts[path].count(old)
        if times != 1:
            raise BadEdit(f"{path} has this text {times} times, and not once: {old}")
        functions.append(function_at(path, texts[path], texts[path].index(old)))
        texts[path] = texts[path].replace(old, new)
    if texts == before:
        raise BadEdit("it changes nothing")
    return texts, [] if None in functions else sorted(set(functions))


def bodies_of(edit, folder):
    """The functions whose bodies an edit changes, each by its file and its name. Empty if it changes anything else, but for
    the answers of these functions.
    """
    pairs = pairs_of(edit)
    bodies = {(path, body_at(f"{folder}/{path}", path, old)) for path, old, _ in pairs if path.startswith("src/")}
    others = [path for path, _, _ in pairs if not path.startswith("src/")]
    is_clean = all(name for _, name in bodies) and all(any(are_answers(path, body) for body in bodies) for path in others)
    return bodies if is_clean else set()


def body_at(file, path, old):
    """The name of the function whose body has this text, or None."""
    text = text_of(file, path)
    name = function_at(path, text, text.find(old)) if old in text else None
    if name is None:
        return None
    lines = text[: text.index(old)].split("\n")
    first = max(at for at, line in enumerate(lines) if FUNCTION.match(line))
    # The line that opens the body is the first that ends in a brace.
    return name if any(line.endswith("{") for line in lines[first:-1]) else None


def are_answers(path, body):
    """Whether a proof file has the answers of a function, which is named by its file and its name."""
    file, name = body
    inner = file.removeprefix("src/").removesuffix(".rt")
    module = "" if inner in ("lib", "main") else f"{inner}/"
    return path.startswith(f"proofs/{module}") and path.endswith(f"/{name}/Answers.antt")


def is_place_of(path, line, body, texts):
    """Whether a line of a file is in a function, or in its answers."""
    file, name = body
    if path != file:
        return are_answers(path, body)
    above = "\n".join(texts[file].split("\n")[:line])
    return function_at(path, above, len(above)) == name


def text_of(file, path):
    """The text of a file that an edit calls by a path."""
    try:
        with open(file, encoding="utf-8") as text:
            return text.read()
    except OSError as error:
        raise BadEdit(f"there is no file {path}") from error


def function_at(path, text, at):
    """The name of the function that a place of a source file lies in; None where it lies in none, or in a definition."""
    if not path.startswith("src/"):
        return None
    for line in reversed(text[:at].split("\n")):
        found = FUNCTION.match(line)
        if found:
            return found[1]
    return None

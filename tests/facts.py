"""What the pages say in tables and lists, and what the sources say of the same.

A fact is a code with its name, an exit status, a line of an answer, or a limit, each with the words beside it. tests/pages
compares them. Each function here takes the text of a page, or a function that reads a file of the tree.
"""
import re

ESCAPES = {"\\-": "-", "\\(aq": "'", "\\e": "\\", "\\&": ""}


def unescaped(line):
    """A line of a manual page without escapes."""
    line = re.sub(r"\\f[BIR]", "", line)
    return re.sub(r"\\(-|\(aq|e|&)", lambda it: ESCAPES[it.group()], line)


def plain(words):
    """Words as they compare: without code marks and separators of thousands, with the first letter small."""
    words = re.sub(r"(?<=\d),(?=\d{3}\b)", "", words.replace("`", "").strip().removesuffix("."))
    return words[:1].lower() + words[1:]


def tables(text):
    """Each table of a page: the paragraph before it, and the cells of its rows, the head first."""
    before, rows = "", []
    for line in [*re.sub(r"^```.*?^```$", "", text, flags=re.M | re.S).splitlines(), ""]:
        if line.startswith("|"):
            cells = [it.strip() for it in line.strip().strip("|").split(" | ")]
            rows += [cells] if set(line) - set("|-: ") else []
        elif rows:
            yield before, rows
            before, rows = "", []
        elif line.strip():
            before = line


def table(text, *head):
    """The rows of the one table of a page with this head."""
    found = [rows[1:] for _, rows in tables(text) if tuple(rows[0]) == head]
    if len(found) != 1:
        raise AssertionError(f"{len(found)} tables have the head {head}")
    return found[0]


def manual_line(line):
    """The text of a line of a manual page."""
    if not line.startswith("."):
        return unescaped(line)
    macro, _, rest = line[1:].partition(" ")
    words = [quoted or word for quoted, word in re.findall(r'"([^"]*)"|(\S+)', rest)]
    return unescaped(("" if re.fullmatch("[BIR]{2}", macro) else " ").join(words))


def section(text, name):
    """The items of a section of a manual page: each its tag, '' for a paragraph, and its text."""
    parts = re.findall(rf'^\.SH "?{name}"?\n(.*?)(?=^\.SH|\Z)', text, re.M | re.S)
    if len(parts) != 1:
        raise AssertionError(f"{len(parts)} sections are named {name}")
    items, lines = [("", [])], iter(re.sub(r"^\.EX\n.*?^\.EE$", "", parts[0], flags=re.M | re.S).splitlines())
    for line in lines:
        if line == ".TP":
            items.append((manual_line(next(lines)), []))
        elif line == ".PP":
            items.append(("", []))
        else:
            items[-1][1].append(manual_line(line))
    return [(tag, " ".join(" ".join(words).split())) for tag, words in items]


def page_codes(text):
    """The codes of a page: of each its name and its words."""
    found = {}
    for _, rows in tables(text):
        if rows[0][:3] == ["Code", "Name", "When"]:
            found.update({int(code): (name, plain(words)) for code, name, words, *_ in rows[1:]})
        elif rows[0][:2] == ["Code and name", "When"]:
            for both, words, *_ in rows[1:]:
                code, name = both.split(", ")
                found[int(code)] = (name, plain(words))
    return found


def manual_codes(text):
    """The codes of a manual page: of each its name and its words."""
    items = [(tag.split(), words) for tag, words in section(text, "REFUSALS") if tag]
    return {int(code): (name, plain(words)) for (code, name), words in items}


def page_statuses(text):
    """The exit statuses of a page: of each its words."""
    return {int(status): plain(words) for status, words in table(text, "Exit status", "When")}


def manual_statuses(text):
    """The exit statuses of a manual page: of each its words."""
    return {int(tag): plain(words) for tag, words in section(text, "EXIT STATUS") if tag}


def codes_in(words):
    """The codes that the words of a status name, as 'code 10 to 22 or 50 to 55'."""
    found = set()
    for first, last in re.findall(r"\b(?:code|or) (\d+)(?: to (\d+))?", words):
        found |= {*range(int(first), int(last or first) + 1)}
    return found


def source_codes(read, crate):
    """The codes of a crate, each with its name."""
    constants = re.findall(r"^pub const (\w+): u16 = (\d+);$", read(f"crates/{crate}/src/codes.rt"), re.M)
    return {int(code): "".join(word.title() for word in name.split("_")) for name, code in constants}


def source_status(read, crate, names):
    """The exit status of a code when all is written, by the definition of a crate; names are those of the codes."""
    text = read(f"crates/{crate}/specs/Status.antt")
    body = re.search(r"^status_of code whole =\n((?: .*\n)+)", text, re.M).group(1)
    steps = re.findall(r"(?:if (.+?) then|else(?! if)) (\w+)", body)
    numbers = {re.sub(r"(?<!^)(?=[A-Z])", "_", name).upper(): code for code, name in names.items()}

    def status(code):
        for condition, value in steps:
            relation, word = re.fullmatch(r"(not|code ==|nat_le code|) ?(\w*)", condition).groups()
            bound = numbers[word] if word in numbers else int(word) if word.isdigit() else None
            if not relation or relation == "code ==" and code == bound or relation == "nat_le code" and code <= bound:
                return code if value == "code" else int(value)
        raise AssertionError(f"{crate} gives {code} no status")

    return status


def source_limits(read):
    """The limits of both versions by their names, and of the options with their defaults."""
    found, source = {}, read("crates/mt_terms/src/limits.rt")
    for version, body in re.findall(r"^pub const LIMITS(\w*): Limits = Limits \{\n(.*?)^\};$", source, re.M | re.S):
        for name, number in re.findall(r"^ +(\w+): ([\d_]+),$", body, re.M):
            found[name + version] = int(number)
    for option, most, default in re.findall(r"--(\w+) <N> .*?1 to (\d+)\D.*?\[default: (\d+)\]", read("tests/help.txt")):
        found[f"most_{option}"], found[f"default_{option}"] = int(most), int(default)
    return found

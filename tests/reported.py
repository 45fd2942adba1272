"""What `nrreport` writes, counted agent by agent from docs/REPORT.md alone: the lines, and the numbers of the page.

`page_numbers` reads the numbers of a page, and says what is wrong with its form.
"""
import importlib.machinery
import importlib.util
import os
import xml.etree.ElementTree as ElementTree

HERE = os.path.dirname(os.path.realpath(__file__))
# How many numbers of a list have a row of their own on a page, and how long its longest bars are.
FIRST = 20
WIDTH = 400
HTML = "{http://www.w3.org/1999/xhtml}"
SVG = "{http://www.w3.org/2000/svg}"
# What a page says in place of a table.
NO_COUPLES = "The market has no couple."
NO_PAIRS = "No couple has a pair of its list."
NO_OPEN_POSTS = "No program has an open post."


def script(name):
    """A script beside this one, as a module."""
    loader = importlib.machinery.SourceFileLoader(f"{name}_script", f"{HERE}/{name}")
    module = importlib.util.module_from_spec(importlib.util.spec_from_loader(loader.name, loader))
    loader.exec_module(module)
    return module


check = script("check")


def options_held(market, places, size):
    """Of each agent with this many members the number of the option that it has, from 1, or none."""
    held = []
    for _, members, options in market.agents:
        own = tuple(places[name] for name in members)
        if len(members) == size:
            held.append(options.index(own) + 1 if own in options else None)
    return held


def counted(word, held):
    """A line for each number up to the largest, with how many have it."""
    largest = max((number for number in held if number), default=0)
    return [f"{word},{number},{held.count(number)}" for number in range(1, largest + 1)]


def report(market, places):
    """The lines of a report."""
    there = check.by_program(market, places)
    singles = [places[members[0]] for _, members, _ in market.agents if len(members) == 1]
    placed = [sum(places[name] != "-" for name in members) for _, members, _ in market.agents if len(members) == 2]
    full, partly, empty, filled, free, lines = 0, 0, 0, 0, 0, []
    for program, quota in market.quotas.items():
        names = [name for name in sorted(market.ranks[program], key=market.ranks[program].get) if name in places]
        at = len(there[program])
        full += at >= quota
        partly += 0 < at < quota
        empty += at == 0 < quota
        filled, free = filled + at, free + max(0, quota - at)
        last = max((names.index(name) + 1 for name in there[program] if name in names), default="")
        lines.append(f"program,{program},{quota},{at},{len(names)},{last}")
    return "".join(f"{line}\n" for line in [
        *counted("choice", options_held(market, places, 1)),
        f"unmatched,{singles.count('-')}",
        f"couples,{placed.count(2)},{placed.count(1)},{placed.count(0)}",
        *counted("pair", options_held(market, places, 2)),
        f"programs,{full},{partly},{empty}",
        f"posts,{filled},{free}",
        *lines,
    ])


def chart(rows):
    """The rows of a chart, each with the length of its bar."""
    largest = max(count for _, count in rows)
    return [(name, count, count * WIDTH // max(1, largest)) for name, count in rows]


def numbered(rows):
    """The rows of the first numbers of lists, and one for all later ones."""
    later = [count for _, count in rows[FIRST:]]
    return rows[:FIRST] + [(f"{FIRST + 1} or later", sum(later))] * bool(later)


def wanted_page(market, places):
    """What the sections of a page have, from the lines of the report."""
    lines = [line.split(",") for line in report(market, places).splitlines()]
    fields = {word: [line[1:] for line in lines if line[0] == word] for word in ("choice", "pair", "program")}
    sums = {line[0]: list(map(int, line[1:])) for line in lines if line[0] not in fields}
    choices, pairs = ([(k, int(count)) for k, count in fields[word]] for word in ("choice", "pair"))
    unmatched, (filled, free) = sums["unmatched"][0], sums["posts"]
    free_programs = [tuple(row) for row in fields["program"] if int(row[2]) < int(row[1])]
    totals = (len(places), filled, unmatched, sum(sums["couples"]), sum(sums["programs"]), free)
    page = {
        "Totals": list(zip(TOTALS, totals)),
        "Choices of singles": chart(numbered(choices) + [("no place", unmatched)]),
        "Couples": chart(list(zip(("both", "one", "neither"), sums["couples"]))),
        "Pairs of couples": chart(numbered(pairs)) if pairs else NO_PAIRS,
        "Programs": chart(list(zip(("full", "partly", "empty"), sums["programs"]))),
        "Programs with open posts": free_programs or NO_OPEN_POSTS,
    }
    if not sum(sums["couples"]):
        page["Couples"] = NO_COUPLES
        del page["Pairs of couples"]
    return page


TOTALS = ("applicants", "applicants with a place", "singles without a place", "couples", "programs", "open posts")


def cells_of(row):
    """The cells of a row, and the length of the bar in the last one if there is one."""
    header, *cells = row
    assert header.tag == f"{HTML}th" and header.get("scope") == "row"
    assert all(cell.tag == f"{HTML}td" for cell in cells)
    bars = row.findall(f".//{SVG}svg")
    if not bars:
        return (header.text, *(cell.text or "" for cell in cells))
    (bar,), (number, _) = bars, cells
    (shape,) = bar
    assert shape.tag == f"{SVG}rect" and bar.get("viewBox") == f"0 0 {WIDTH} 14"
    assert bar.get("role") == "img" and bar.get("aria-label") == f"a bar for {number.text}"
    return header.text, int(number.text), int(shape.get("width"))


def section_of(element):
    """What a table has, or the sentence in its place."""
    if element.tag == f"{HTML}p":
        return element.text
    head, body = element
    assert element.tag == f"{HTML}table" and head.tag == f"{HTML}thead" and body.tag == f"{HTML}tbody"
    (names,) = head
    assert all(name.tag == f"{HTML}th" and name.get("scope") == "col" and name.text for name in names)
    assert {len(row) for row in body} == {len(names)}
    return [cells_of(row) for row in body]


def page_numbers(text):
    """What the sections of a page have. It fails if the page isn't well-formed, or needs something outside itself."""
    assert text.startswith("<!DOCTYPE html>\n")
    page = ElementTree.fromstring(text)
    assert page.tag == f"{HTML}html" and page.get("lang") == "en" and page.find(f"{HTML}head/{HTML}title").text
    assert not {name for element in page.iter() for name in element.attrib} & {"src", "href", "style", "onload"}
    assert not {element.tag.split("}")[1] for element in page.iter()} & {"script", "link", "img", "iframe", "object"}
    assert "url(" not in text and "@import" not in text
    title, _, *sections = page.find(f"{HTML}body/{HTML}main")
    assert title.tag == f"{HTML}h1" and all(heading.tag == f"{HTML}h2" for heading in sections[::2])
    found = {heading.text: section_of(section) for heading, section in zip(sections[::2], sections[1::2])}
    found["Totals"] = [(name, int(number)) for name, number in found["Totals"]]
    return found

"""What nrexplain writes for a match: plain, slow, and written beside the program from docs/EXPLAIN.md, over tests/rules.py.

`explained` gives the whole text and the status. It moves the members of an agent and counts who is ahead, for each option
anew.
"""
import copy
import re

import rules

ID = re.compile("[A-Za-z0-9._:-]{1,64}")
NONE = rules.NONE


class Agents:
    """The agents of an accepted market: of each its kind, its id, its members and its options."""

    def __init__(self, text):
        rows = rules.accepted(text.encode())
        self.market = rules.Market(rows)
        gone = {(row[1], row[2]) for row in rows if row[0] == "withdraw"}
        ids = [(row[0], row[1]) for row in rows if row[0] in ("applicant", "couple") and (row[0], row[1]) not in gone]
        self.agents = [(*them, *agent) for them, agent in zip(ids, self.market.agents)]

    def named(self, word):
        """The agent with an id: that of the applicant with it, or else the couple with it."""
        if word in self.market.agent_of:
            return self.agents[self.market.agent_of[word]]
        return next((agent for agent in self.agents if agent[:2] == ("couple", word)), None)

    def without(self, aside):
        """The same agents, but the couples with these ids want nothing."""
        others = copy.copy(self)
        others.agents = [(*agent[:3], []) if agent[0] == "couple" and agent[1] in aside else agent for agent in self.agents]
        return others


def rank(market, program, name):
    """An applicant's number on a program's list, or nothing."""
    return market.ranks[program][name] + 1 if program != NONE and name in market.ranks[program] else ""


def ahead(market, places, program, name):
    """How many at a program it ranks above an applicant."""
    own = market.ranks[program][name]
    return sum(place == program and market.ranks[program].get(it, own) < own for it, place in places.items())


def lines_of(market, places, agent, is_public):
    """The lines of an agent, each as a list of fields."""
    kind, word, members, options = agent
    own = tuple(places[name] for name in members)
    choice = options.index(own) + 1 if own in options else ""
    told = "" if is_public or len(members) > 1 else rank(market, own[0], members[0])
    first = [kind, word, *own, choice] + ([told] if len(members) == 1 else [])
    yield first + [""] * (9 - len(first))
    for number, option in enumerate(options[: choice - 1] if choice else options, 1):
        moved = {**places, **dict(zip(members, option))}
        for name, program in zip(members, option):
            if program == NONE:
                continue
            quota, numbers, why = market.quotas[program], ("", market.quotas[program], ""), "unlisted"
            if name in market.ranks[program]:
                before = ahead(market, moved, program, name)
                numbers, why = (rank(market, program, name), quota, before), "open" if before < quota else "full"
            yield ["above", word, number, program, name, *(("", "", "") if is_public else numbers), why]


def explained(agents, places, words, is_public):
    """What is to be written for a match, and the status."""
    for word in words:
        if agents.named(word) is None:
            shown = word if ID.fullmatch(word) and word != NONE else NONE
            return f"check,1,refused,56,NoSuchAgent,market,0,{shown}\n", 2
    asked = [agents.named(word) for word in words] or agents.agents
    lines = [line for agent in asked for line in lines_of(agents.market, places, agent, is_public)]
    return "".join(",".join(map(str, line)) + "\n" for line in lines), 0


def places_in(text):
    """The places of a match."""
    return {row[1]: row[2] for row in (line.split(",") for line in text.splitlines()) if row[0] == "applicant"}


def aside_in(text):
    """The ids of the couples that a match sets aside."""
    return [row[1] for row in (line.split(",") for line in text.splitlines()) if row[0] == "aside"]


def match_text(places, aside=()):
    """A match with these places, in which the couples with these ids are set aside."""
    return "".join(f"applicant,{name},{place}\n" for name, place in places.items()) + "".join(f"aside,{name}\n" for name in aside)

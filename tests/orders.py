"""What nrmatch answers if the couples enter in other orders, or if some are set aside: plain, slow, and written beside the
program, over tests/rules.py.

`order_of` gives the order of couples with a number. `first_order` and `fewest_aside` say which order is used and which
couples are set aside. `answer` gives the whole text for the bytes of an input. Run as a program, it tries both on random
markets and compares what should be the same.
"""
import collections
import copy
import random
import sys

import rules

WORD = 2**64
MULTIPLIER = 6364136223846793005
INCREMENT = 1  # of stream 0
# How a line on standard error ends that names the couple that was entering.
WHEN = r"( when the budget of {budget:,} rounds was spent|; after [\d,]+ rounds all was as before, so no budget is enough)\n"


class Pcg32:
    """The generator PCG32 (XSH RR 64/32) of O'Neill 2014, on stream 0."""

    def __init__(self, seed):
        self.state = (seed + INCREMENT) % WORD
        self.step()

    def step(self):
        """Goes on by one state."""
        self.state = (self.state * MULTIPLIER + INCREMENT) % WORD

    def next_word(self):
        """The word of the state, and a step."""
        word = ((self.state >> 18 ^ self.state) >> 27) % 2**32
        turn = self.state >> 59
        self.step()
        return (word >> turn | word << (-turn % 32)) % 2**32


def order_of(number, couples):
    """The order of couples that has a number, from 1: the first is that of registration, the others are shuffles."""
    order = [*range(couples)]
    if number == 1:
        return order
    generator = Pcg32(number)
    for last in range(couples - 1, 0, -1):
        other = generator.next_word() % (last + 1)
        order[last], order[other] = order[other], order[last]
    return order


class Spent(Exception):
    """The budget is spent while the couple at a place of the order is entering."""

    def __init__(self, place):
        super().__init__(place)
        self.place = place


def couples_of(market):
    """The couples as agents, by number."""
    return [agent for agent, (members, _) in enumerate(market.agents) if len(members) == 2]


def enter(matching, order, budget):
    """Lets the couples of an order enter one after another, and gives how many rounds that took."""
    market, rounds, couples = matching.market, 0, couples_of(matching.market)
    numbers = {program: number for number, program in enumerate(market.quotas)}
    here = {agent for agent, (members, _) in enumerate(market.agents) if len(members) == 1}
    for place, couple in enumerate(couples[number] for number in order):
        here.add(couple)
        waiting = collections.deque([couple])
        while waiting:
            if rounds == budget:
                raise Spent(place)
            rounds += 1
            agent = waiting.popleft()
            option = matching.better(agent)
            if option is None:
                continue
            out, left = matching.move(agent, option)
            waiting.extend(it for it in dict.fromkeys(out) if it not in waiting)
            again = [agent]
            for program in sorted(left, key=numbers.get):
                again += [market.agent_of[name] for name in market.lists[program]]
            for other in again:
                if other in here and other not in waiting and matching.better(other) is not None:
                    waiting.append(other)
    return rounds


def entered(singles, order, budget):
    """The match once the couples of an order have entered, or the place of the one that is entering at the end."""
    matching = copy.deepcopy(singles)
    try:
        enter(matching, order, budget)
    except Spent as spent:
        return None, spent.place
    return matching, None


def first_order(singles, budget, orders):
    """The first of this number of orders in which the rounds end, with its match, or None."""
    couples = len(couples_of(singles.market))
    for number in range(1, orders + 1):
        matching, _ = entered(singles, order_of(number, couples), budget)
        if matching is not None:
            return number, matching
    return None


def aside_in_turn(singles, order, budget):
    """The couples that are set aside in turn, and the match of the others, which enter in the order."""
    aside = []
    while True:
        others = [number for number in order if number not in aside]
        matching, place = entered(singles, others, budget)
        if matching is not None:
            return aside, matching
        aside.append(others[place])


def fewest_aside(singles, budget, orders):
    """The couples that are set aside, and the match of the others, in the first of this number of orders with the fewest."""
    couples = len(couples_of(singles.market))
    found = (aside_in_turn(singles, order_of(number, couples), budget) for number in range(1, orders + 1))
    return min(found, key=lambda one: len(one[0]))


def blockers(matching, aside):
    """The agents that block a match in which some couples are set aside."""
    couples = couples_of(matching.market)
    gone = {couples[number] for number in aside}
    return [agent for agent in range(len(matching.market.agents)) if agent not in gone and matching.better(agent) is not None]


def couple_names(rows):
    """The ids of the couples that aren't withdrawn, by number."""
    gone = {row[2] for row in rows if row[:2] == ["withdraw", "couple"]}
    return [row[1] for row in rows if row[0] == "couple" and row[1] not in gone]


def text_aside(matching, names):
    """What is published if the couples with these ids are set aside."""
    *lines, totals = matching.text().splitlines()
    lines[0] = "match,2,published"
    return "".join(f"{line}\n" for line in [*lines, *(f"aside,{name}" for name in names), totals])


def answer(data, budget, orders, sets_aside):
    """The text for an input, a budget of rounds, a number of orders, and whether couples may be set aside."""
    try:
        rows = rules.accepted(data)
    except rules.Refused as refused:
        return refused.text()
    singles = singles_of(rules.Market(rows))
    found = first_order(singles, budget, orders)
    if found:
        return found[1].text()
    if not sets_aside:
        return rules.Refused(41).text()
    aside, matching = fewest_aside(singles, budget, orders)
    names = couple_names(rows)
    return text_aside(matching, [names[number] for number in aside])


def status_of(text):
    """The exit status that goes with a text."""
    return 6 if text.startswith("match,2,") else rules.status_of(text)


def complaint(text, budget, couple=r"[\w.:-]+", where=""):
    """The pattern of standard error beside a text, for a budget, where a couple is entering when the budget is spent."""
    if ",BudgetSpent," not in text:
        return ""
    return f"nrmatch: couple {couple} was entering{where}" + WHEN.format(budget=budget)


def random_rows(source, applicants, share, posts):
    """The records of a market with this number of applicants, a share of them in couples, and of posts for each."""
    names = [f"a{number}" for number in range(applicants)]
    programs = [f"P{number}" for number in range(max(2, applicants // 3))]
    rows = [["program", name, "0", *source.sample(names, source.randint(1, applicants))] for name in programs]
    for _ in range(round(applicants * posts)):
        row = source.choice(rows)
        row[2] = str(int(row[2]) + 1)
    pairs = int(applicants * share / 2)
    some = lambda: source.sample(programs, min(len(programs), 4))
    for number in range(pairs):
        both = {(one, two) for one in some() for two in some()}
        wishes = source.sample(sorted(both), min(len(both), 6))
        rows.append(["couple", f"c{number}", names[2 * number], names[2 * number + 1], *(place for it in wishes for place in it)])
    rows += [["applicant", name, *some()] for name in names[2 * pairs :]]
    return rows


def singles_of(market):
    """The best match of the singles."""
    matching = rules.Matching(market)
    matching.propose()
    return matching


def compare(source, budget=2000):
    """Compares on one random market what should be the same. Gives how many orders end, and how many couples are set aside."""
    singles = singles_of(rules.Market(random_rows(source, source.randint(6, 24), 0.5, source.uniform(0.7, 1.1))))
    couples = len(couples_of(singles.market))
    by_rules = copy.deepcopy(singles)
    try:
        by_rules.enter_couples(budget)
    except rules.Refused:
        by_rules = None
    plain, place = entered(singles, order_of(1, couples), budget)
    assert (plain and plain.places) == (by_rules and by_rules.places)
    ends = 0
    for number in range(1, 11):
        order = order_of(number, couples)
        assert sorted(order) == [*range(couples)]
        matching, _ = entered(singles, order, budget)
        if matching is not None:
            ends += 1
            assert not blockers(matching, [])
    aside, matching = aside_in_turn(singles, order_of(1, couples), budget)
    assert not blockers(matching, aside)
    fewest, of_others = fewest_aside(singles, budget, 10)
    assert not blockers(of_others, fewest) and len({*fewest}) == len(fewest) <= len(aside)
    gone = [name for number in aside for name in singles.market.agents[couples_of(singles.market)[number]][0]]
    assert all(matching.places[name] == rules.NONE for name in gone)
    assert bool(aside) == (plain is None)
    if place is not None:
        # The couples before the one that was entering enter as they did.
        others = [number for number in order_of(1, couples) if number != place]
        before, _ = entered(singles, range(place), budget)
        again, _ = entered(singles, others[:place], budget)
        assert before.places == again.places
    return ends, len(aside), len(fewest)


def main(markets):
    """Tries this number of random markets."""
    source = random.Random(1)
    seen = collections.Counter(compare(source) for _ in range(markets))
    for (ends, aside, fewest), count in sorted(seen.items()):
        print(f"{count} markets: {ends} of 10 orders end, {aside} couples set aside, and {fewest} by 10 orders")


if __name__ == "__main__":
    main(int(sys.argv[1]) if len(sys.argv) > 1 else 200)

"""Random claims on a program whose answers and moments are known: some hold, some don't, and most are near them."""
from claims import Claim, is_named
from random_programs import NUMBERS
from terms import CANCELER, HIDDEN, UNNAMED

WORDS = ["want", "want", "no-deadlock", "all-end", "must", "must", "can", "can", "never", "never", "before", "before",
         "always", "ever", "never of refs", "must of refs", "can of refs"]
OUTCOMES = ["0", "1", "7", "canceled", "unended", "errored", "succeeded", ["errored", "7"], ["succeeded", "1"]]
COMPARISONS = ["=", "!=", "<", "<=", ">", ">="]


class Claimer:
    """Makes claims by the random numbers of a Maker, for a translated program and a search of it that keeps says.
    `head` are the names of the refs that the program makes first."""

    def __init__(self, maker, made, search, head):
        self.maker, self.one, self.chance = maker, maker.one, maker.chance
        self.made, self.head = made, head
        self.answers = sorted(search.answers(), key=str)
        held = {it for moment in search.moments() for it in moment}
        self.held = sorted((it for it in held if it[1] is not None and it[0] != HIDDEN), key=str)
        self.fibers = ["main", "*", "*"]
        for spelling, number in sorted(made.fibers, key=str):
            self.fibers += [spelling] * 2 if number is None else [spelling] + ["%s.%d" % (spelling, number)] * 2

    def claims(self):
        """A few claims."""
        found = []
        for _ in range(self.maker.random.randint(2, 5)):
            claim = self.claim(self.one(WORDS))
            if claim is None or claim in found:
                continue
            if not Claim(claim, dict(self.maker.constants)).is_refused(self.made) or self.chance(0.1):
                found.append(claim)
        return [["fails", it] if self.chance(0.15) else it for it in found or [["no-deadlock"]]]

    def claim(self, word):
        """A claim of this kind, or None."""
        if word in ("no-deadlock", "all-end"):
            return [word]
        if word == "want":
            return [word] + self.wanted()
        if word in ("must", "can", "never"):
            return [word, self.condition(2)]
        if word == "before":
            events = self.events()
            return [word, self.one(events), self.one(events)] if events else None
        return self.of_refs(word)

    def number(self, value):
        """A number of the range of values, or the name of a constant that is this number."""
        names = [name for name, number in self.maker.constants if number == value]
        return self.one(names) if names and self.chance(0.3) else str(max(-2 ** 62, min(value, 2 ** 62 - 1)))

    # Answers

    def wanted(self):
        """Outcomes of main: most of those that come, and sometimes another one."""
        found = []
        for outcome in [self.outcome(it[0][1]) for it in self.answers]:
            found += [outcome] if outcome not in found else []
        if len(found) > 1 and self.chance(0.4):
            found.pop(self.maker.random.randrange(len(found)))
        if self.chance(0.15):
            found.append(self.one(OUTCOMES))
        return found[:4] or ["0"]

    def outcome(self, outcome):
        """A form that an outcome meets."""
        if outcome is None:
            return "unended"
        if outcome[0] == "canceled" or self.chance(0.2):
            return outcome[0]
        value = self.number(outcome[1])
        return value if outcome[0] == "succeeded" and self.chance(0.5) else [outcome[0], value]

    def events(self):
        """Fibers with values that they say, for `before`."""
        found = []
        for label, _, said in (fiber for it in self.answers for fiber in it):
            if label not in (UNNAMED, CANCELER):
                name = label[0] if label[1] is None or self.chance(0.5) else "%s.%d" % label
                found += [[name, self.number(value)] for value in said]
        return sorted(found) + ([["main", "1"]] if found and self.chance(0.1) else [])

    def condition(self, deep):
        """A condition on fibers, near what an answer has."""
        if deep > 0 and self.chance(0.35):
            word = self.one(["and", "or", "not"])
            many = 1 if word == "not" else self.maker.random.randint(1, 3)
            return [word] + [self.condition(deep - 1) for _ in range(many)]
        name, word = self.one(self.fibers), self.one(["ends", "ends", "said", "says"])
        near = [it for answer in self.answers for it in answer if is_named(name, it[0])]
        if not near or self.chance(0.15):
            return [word, name] + ([self.one(OUTCOMES)] if word == "ends" else [self.one(NUMBERS)])
        if word == "ends":
            made = [self.outcome(self.one(near)[1]) for _ in range(self.maker.random.randint(1, 2))]
            return [word, name] + [it for number, it in enumerate(made) if it not in made[:number]]
        several = [it for it in near if len(set(it[2])) > 1]
        said = [self.number(it) for it in self.one(several if several and self.chance(0.7) else near)[2]][:4]
        if self.chance(0.3):
            self.maker.random.shuffle(said)
        if word == "said":
            said = [it for it in said if self.chance(0.7)] or said or ["1"]
        return [word, name] + said

    # Refs

    def of_refs(self, word):
        """A claim on refs at a moment or at the end, or None."""
        names = sorted(it for it, sites in self.made.refs.items() if it != "_" and len(sites) == 1)
        first = [it for it in names if it in self.head]
        at_the_end = word in ("must of refs", "can of refs")
        if at_the_end and self.made.has_loop() or not (first if at_the_end else names):
            return None
        name = self.one(first if at_the_end or first and self.chance(0.6) else names)
        condition = self.comparison(name)
        if name in self.head and self.chance(0.4):
            more = [self.comparison(self.one(first)) for _ in range(self.maker.random.randint(1, 2))]
            condition = [self.one(["and", "or"]), condition] + more
        if self.chance(0.15):
            condition = ["not", condition]
        return [word.partition(" ")[0], condition]

    def comparison(self, name):
        """A comparison of a ref with a number near one that it holds."""
        held = [it for it in self.held if it[0][0] == name]
        label, value = self.one(held) if held else ((name, None), 0)
        if self.chance(0.15):
            value = 0
        name = name if label[1] is None else "%s.%d" % label
        return [self.one(COMPARISONS), name, self.number(value + self.one([0, 0, 0, 1, -1]))]

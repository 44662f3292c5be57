"""The verdicts of a model's claims over all its schedules (docs/MODEL_FILES.md, "Claims").

A claim is on every answer or moment, and then refuted by one, or on some answer or moment, and then met by one. `Facts`
are what the searches of a model found. A `Claim` has its verdict by these facts, and says which answers and moments
settle it: those that refute it or meet it."""
import itertools
import operator

from reader import NUMBER
from search import Search
from terms import CANCELER, HIDDEN

COMPARISONS = {"=": operator.eq, "!=": operator.ne, "<": operator.lt, "<=": operator.le, ">": operator.gt,
               ">=": operator.ge}
# The claims that one answer or moment refutes; the others are met by one.
ON_EVERY = ("want", "no-deadlock", "all-end", "must", "never", "always", "before")


class Claim:
    """A claim without its `fails`."""

    def __init__(self, form, constants):
        self.fails = form[0] == "fails"
        self.form = form[1] if self.fails else form
        self.word, self.constants = self.form[0], constants
        self.refs = sorted(set(named_behind(self.form, COMPARISONS)))
        self.fibers = sorted(set(named_behind(self.form, ("ends", "said", "says"))))
        self.says = any(named_behind(self.form, ("said", "says")))
        self.on_every = self.word in ON_EVERY

    def is_refused(self, made):
        """Whether this is a `before` that names a fiber which says a computed value, in a translated program."""
        fibers = [it[0] for it in self.form[1:]] if self.word == "before" else []
        return any(is_named(name, label) for name in fibers for label in made.computed)

    # Answers

    def holds_of(self, answer):
        """Whether what is claimed of answers holds of this one."""
        if self.word == "want":
            return self.is_outcome(answer[0][1], self.form[1:])
        if self.word == "no-deadlock":
            return answer[0][1] is not None
        if self.word == "all-end":
            return all(outcome is not None for label, outcome, _ in answer if label != CANCELER)
        return self.condition(self.form[1], answer, self.word == "must")

    def condition(self, form, answer, empty):
        """Whether a condition on fibers holds of an answer; `ends` and `says` of no fiber count as `empty`."""
        word = form[0]
        if word == "not":
            return not self.condition(form[1], answer, not empty)
        if word in ("and", "or"):
            parts = [self.condition(it, answer, empty) for it in form[1:]]
            return all(parts) if word == "and" else any(parts)
        fibers = [it for it in answer if is_named(form[1], it[0])]
        if word == "ends":
            return all(self.is_outcome(outcome, form[2:]) for _, outcome, _ in fibers) if fibers else empty
        values = [self.number(it) for it in form[2:]]
        if word == "said":
            return any(set(values) <= set(said) for _, _, said in fibers)
        return all(list(said) == values for _, _, said in fibers) if fibers else empty

    def number(self, word):
        """The number that a word means."""
        return int(word) if NUMBER.match(word) else self.constants[word]

    def is_outcome(self, outcome, forms):
        """Whether an outcome is one of these."""
        for form in forms:
            word, value = form if isinstance(form, list) else (form, None)
            if word == "unended":
                found = outcome is None
            elif word in ("succeeded", "errored", "canceled"):
                found = outcome is not None and outcome[0] == word
                found = found and (value is None or outcome[1] == self.number(value))
            else:
                found = outcome == ("succeeded", self.number(word))
            if found:
                return True
        return False

    # Moments

    def values(self, moment):
        """Each way to give the claim's refs values of a moment. There is none before all of them hold a value."""
        held = [[value for label, value in moment if is_named(name, label) and value is not None] for name in self.refs]
        return [dict(zip(self.refs, it)) for it in itertools.product(*held)]

    def at(self, values, form=None):
        """Whether the claim's condition holds of these values of its refs."""
        form = form or self.form[1]
        if form[0] == "not":
            return not self.at(values, form[1])
        if form[0] in ("and", "or"):
            parts = [self.at(values, it) for it in form[1:]]
            return all(parts) if form[0] == "and" else any(parts)
        return COMPARISONS[form[0]](values[form[1]], self.number(form[2]))

    # Verdicts

    def is_settled_by(self, fact):
        """Whether an answer, or the values of the claim's refs, refute a claim on every one or meet one on some."""
        holds = self.at(fact) if self.refs else self.holds_of(fact)
        return holds == (not self.on_every or self.word == "never")

    def facts(self, facts):
        """The answers, or the values of the claim's refs, that this claim is about."""
        if not self.refs:
            return facts.says.answers() if self.says else facts.plain.answers()
        moments = facts.plain.ends() if self.word in ("must", "can") else facts.plain.moments()
        return [it for moment in moments for it in self.values(moment)]

    def verdict(self, facts):
        """`passed` or `failed`."""
        if self.word == "before":
            settled = facts.orders.index(self.form) in facts.plain.late
        else:
            settled = any(self.is_settled_by(it) for it in self.facts(facts))
        if self.on_every:
            settled = settled or bool(facts.plain.faults)
        return "passed" if settled == (self.on_every == self.fails) else "failed"

    def wanted_in_vain(self, facts):
        """The outcomes of a `want` that holds to which no schedule comes."""
        if self.word != "want" or self.fails or self.verdict(facts) == "failed":
            return []
        return [it for it in self.form[1:] if not any(self.is_outcome(of[0][1], [it]) for of in facts.plain.answers())]

    def not_there(self, facts):
        """The names of fibers that no schedule starts, and of refs that never hold a value."""
        there = facts.plain.held() if self.refs else facts.plain.started()
        return [it for it in self.names() if not any(is_named(it, label) for label in there)]

    def names(self):
        """The names of the fibers or the refs that this claim is about."""
        return self.refs or sorted({*self.fibers, *(it[0] for it in self.form[1:] if self.word == "before")})


class Facts:
    """What the searches of a translated model found: without what fibers say, and with it if a claim needs that."""

    def __init__(self, made, bounds, claims, **how):
        self.orders = [it.form for it in claims if it.word == "before"]
        constants = made.file.constants
        orders = [tuple(event(it, constants) for it in form[1:]) for form in self.orders]
        self.plain = Search(made.terms, made.term, bounds, orders, **how)
        self.says = None
        if any(it.says for it in claims):
            self.says = Search(made.terms, made.term, bounds, says=True, **how)


def event(form, constants):
    """Whether a fiber of a label that says a value does what `(f V)` of a `before` names."""
    name, value = form[0], int(form[1]) if NUMBER.match(form[1]) else constants[form[1]]
    return lambda label, said: said == value and is_named(name, label)


def is_named(name, label):
    """Whether a name of a claim means the fiber or ref of this label."""
    spelling, number = label
    if label in (CANCELER, HIDDEN):
        return False
    if name == "*":
        return True
    return spelling is not None and name in (spelling, spelling if number is None else "%s.%d" % label)


def named_behind(form, words):
    """The names that follow these words in a form."""
    if isinstance(form, list):
        if form and isinstance(form[0], str) and form[0] in words:
            yield form[1]
        for it in form:
            yield from named_behind(it, words)

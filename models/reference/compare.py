"""Compares the answers of `fiber_cli test --json` with the verdicts of this reference."""
import collections
import json

from claims import Claim, Facts
from program import Answered, is_claim, text_of, without_computed, without_refused
from random_files import random_file
from reader import File, read, write
from search import TooLarge
from shrink import smallest
from terms import CANCELER, UNNAMED
from translate import Translation

# The most states of a random model, and of a model of a given file.
MOST, MOST_GIVEN = 6000, 200000


class Compared:
    """The differences of one model, and what was counted. A difference is its kind, the claim, and a text."""

    def __init__(self, file, model, answer, plain=False, most=MOST):
        self.differences, self.counts = [], collections.Counter()
        self.made = Translation(file, model)
        self.claims = [Claim(it, file.constants) for it in model.claims]
        try:
            self.facts = Facts(self.made, model.bounds, self.claims, plain=plain, most=most)
        except TooLarge:
            self.counts["models that are too large"] += 1
            return
        self.bounds = model.bounds
        self.counts["models"] += 1
        self.counts["models with several answers"] += len(self.facts.plain.answers()) > 1
        self.counts["models with faults"] += bool(self.facts.plain.faults)
        self.undecided = False
        for claim, got in zip(self.claims, answer["claims"]):
            self.compare(claim, got)
        if not self.undecided:
            self.warnings([(it["code"], it["form"]) for it in answer["warnings"]])

    def differs(self, kind, claim, text):
        """Notes a difference."""
        self.differences.append((kind, claim and write(["fails", claim.form] if claim.fails else claim.form), text))

    def compare(self, claim, got):
        """Compares the verdict of a claim, and the answer or the moment that settles it."""
        word = claim.word + (" of refs" if claim.refs else "")
        self.counts["claims " + word] += 1
        if got["verdict"] == "undecided":
            self.counts["claims undecided"] += 1
            self.undecided = True
            return
        if self.is_tight(claim):
            self.counts["claims that need room in a limit"] += 1
            return
        wanted = claim.verdict(self.facts)
        self.counts["claims " + wanted] += 1
        if got["verdict"] != wanted:
            self.differs("verdict", claim, "fiber_cli: %s, reference: %s" % (got["verdict"], wanted))
        elif got["found"]:
            self.found(claim, got)
        elif got["fault"] and got["fault"] not in self.facts.plain.faults:
            self.differs("fault", claim, "fiber_cli: %s, reference: %s" % (got["fault"], self.facts.plain.faults))

    def is_tight(self, claim):
        """Whether the search of this claim needs a fiber or a ref more than the limits leave."""
        plain = self.facts.plain
        if claim.word == "before":
            counted = plain.limits["count"] is not None
            return counted or plain.most(2) + 1 > plain.limits["refs"] or "Full refs" in str(plain.faults)
        if claim.refs:
            many = max(sum(label[0] == claim.refs[0] for label, _ in it) for it in plain.moments())
            return plain.most(0) + max(many, 1) > plain.limits["fibers"] or "Full fibers" in str(plain.faults)
        return False

    def found(self, claim, got):
        """Compares what was found with the answers, or the moments, that settle the claim."""
        fibers = [(it["fiber"], outcome_of(it["outcome"])) for it in got["found"] if "fiber" in it]
        refs = {(it["ref"], it["value"]) for it in got["found"] if "ref" in it}
        if claim.word == "before":
            return
        settling = [it for it in claim.facts(self.facts) if claim.is_settled_by(it)]
        if claim.refs:
            is_there = any(refs >= set(it.items()) for it in settling)
        else:
            is_there = any(same_fibers(fibers, it) for it in settling)
        if not is_there:
            self.differs("found", claim, "fiber_cli found what settles nothing: %s" % json.dumps(got["found"]))

    def warnings(self, got):
        """Compares the warnings W02 and W03."""
        wanted, got = set(), {it for it in got if it[0] in ("W02", "W03")}
        for claim in self.claims:
            in_vain = {("W02", write(it)) for it in claim.wanted_in_vain(self.facts)}
            absent = {("W03", it) for it in claim.not_there(self.facts)}
            # Whether a name is made before a fault isn't known to each search, so its warning can be missing. A search
            # that meets a limit by its own fiber or ref can't know it at all.
            wanted |= in_vain | (absent & got if self.facts.plain.faults else absent)
            got -= {it for it in got if self.is_tight(claim) and it[1] in claim.names()}
            wanted -= {it for it in wanted if self.is_tight(claim) and it[1] in claim.names()}
        if got != wanted:
            self.differs("warnings", None, "fiber_cli: %s, reference: %s" % (sorted(got), sorted(wanted)))


def outcome_of(value):
    """The outcome that a value of JSON means."""
    if isinstance(value, dict):
        return next(iter(value.items()))
    return None if value == "unended" else (value,)


def same_fibers(found, answer):
    """Whether found fibers are those of an answer, by their outcomes and, where they have one, their names."""
    if len(found) != len(answer):
        return False
    for (name, outcome), (label, ended, _) in zip(found, answer):
        known = None if label in (UNNAMED, CANCELER) else label[0] if label[1] is None else "%s.%d" % label
        if outcome != ended or known not in (None, name):
            return False
    return True


def total(counts, more):
    """The sums of two counts."""
    return collections.Counter(counts) + collections.Counter(more)


def compare_seed(seed, program, plain, whole):
    """The differences of a random file, each with its smallest model unless `whole` is set, and what was counted."""
    forms = random_file(seed)
    differences, counts = compare_forms(forms, program, plain)
    shown = []
    for kind, claim, text, model in differences:
        smaller = one_claim(forms, model, claim)
        if not whole:
            smaller = smallest(smaller, kind, lambda it: compare_forms(it, program, plain)[0])
        again = [it for it in compare_forms(smaller, program, plain)[0] if it[0] == kind]
        text = again[0][2] if again else text
        shown.append(("seed %d: %s of %s" % (seed, kind, model[1]), "%s\n%s" % (text_of(smaller), text)))
    return shown, counts


def compare_file(path, program, plain, _whole):
    """The differences of a model file, and what was counted."""
    with open(path, encoding="utf-8") as file:
        forms = [without_text(it) for it in read(file.read())]
    differences, counts = compare_forms(forms, program, plain, MOST_GIVEN)
    shown = [("%s: %s of %s: %s" % (path, kind, model[1], claim), text) for kind, claim, text, model in differences]
    return shown, counts


def without_text(form):
    """A model without its text."""
    return [it for it in form if isinstance(it, list) or not it.startswith('"')]


def one_claim(forms, model, claim):
    """The forms with one model alone, and with one of its claims alone; of a definition, the forms without models."""
    if model[0] != "model":
        return [it for it in forms if it[0] != "model"]
    claims = [it for it in model[2:] if is_claim(it)]
    if claim is not None:
        model = [it for it in model if isinstance(it, str) or it not in claims or write(it) == claim]
    return [it for it in forms if it[0] != "model"] + [model]


def compare_forms(forms, program, plain, most=MOST):
    """The differences of the models of a file, and what was counted. A difference is its kind, the text of its claim, a
    text, and its model."""
    counts, found = collections.Counter(), []
    forms, refused = without_refused(program, forms)
    forms, tried = without_computed(program, forms)
    answered = Answered(program, forms)
    counts["claims refused by E22"] += sum(is_refused for _, is_refused in tried) + answered.dropped
    counts["forms refused by E15"] += sum(is_refused for _, is_refused in refused)
    counts["models refused otherwise"] += len(answered.refused)
    found += [("no refusal E15", None, "fiber_cli takes a use of a row that the reference refuses", form)
              for form, is_refused in refused if not is_refused]
    found += [("no refusal", None, "fiber_cli takes a `before` of a fiber that says a computed value", form)
              for form, is_refused in tried if not is_refused]
    found += [("refusal " + code, None, "fiber_cli refuses what the reference takes", form)
              for code, form in answered.refused if code != "E23"]
    counts["models that differ"] += len(found)
    file, models = File(answered.forms), [it for it in answered.forms if it[0] == "model"]
    for form, model, answer in zip(models, file.models, answered.models):
        compared = Compared(file, model, answer, plain, most)
        counts += compared.counts
        counts["models that differ"] += bool(compared.differences)
        found += [it + (form,) for it in compared.differences]
    return found, counts

"""Runs `fiber_cli test` on model files, without the models and claims that it refuses."""
import json
import os
import re
import subprocess
import tempfile

from claims import Claim
from reader import File, Model, write
from translate import Refused as RefusedUse, Translation

# The bounds of each search.
BOUNDS = ["--worlds", "100000", "--seconds", "3", "--jobs", "1"]
FAULT = re.compile(r"error\[(E\d+)\].*\n +--> [^\n]*:(\d+):\d+\n")
CLAIMS = ("want", "no-deadlock", "all-end", "must", "can", "never", "always", "ever", "before", "fails")


class Refused(Exception):
    """The program refuses a file. `codes` has for each line with a fault the code of the fault."""

    def __init__(self, codes):
        super().__init__(codes)
        self.codes = codes


class Answered:
    """The answer of the program to what it takes of a file: `forms` are these forms, and `models` what it answers to
    their models. `dropped` is the number of claims that it refuses by E22, `refused` are pairs of a code and a form
    that it refuses otherwise."""

    def __init__(self, program, forms):
        self.forms, self.models, self.dropped, self.refused = forms, None, 0, []
        while self.models is None:
            try:
                self.models = tested(program, self.forms)
            except Refused as refused:
                self.drop(refused.codes)

    def drop(self, codes):
        """Leaves out each claim with the fault E22, and each form with another fault."""
        line, kept = 1, []
        for form in self.forms:
            height = len(lines(form))
            faulty = [it for it in range(line, line + height) if it in codes]
            kept += self.without(form, faulty[0] - line, codes[faulty[0]]) if faulty else [form]
            line += height
        if kept == self.forms:
            raise Refused(codes)
        self.forms = kept

    def without(self, form, line, code):
        """What is left of a form with this fault in one of its lines."""
        if code == "E22" and form[0] == "model" and line > 0 and is_claim(form[line + 1]):
            self.dropped += 1
            rest = form[:line + 1] + form[line + 2:]
            return [rest] if any(map(is_claim, rest)) else []
        self.refused.append((code, form))
        return []


def tested(program, forms):
    """The models of a file, as `test --json` answers."""
    with tempfile.TemporaryDirectory() as room:
        path = os.path.join(room, "a.fm")
        with open(path, "w", encoding="utf-8") as file:
            file.write(text_of(forms))
        ran = subprocess.run([program, "test", "--json"] + BOUNDS + [path], capture_output=True, encoding="utf-8",
                             check=False)
    if ran.returncode == 65:
        raise Refused({int(line): code for code, line in FAULT.findall(ran.stderr)})
    return json.loads(ran.stdout)["models"]


def lines(form):
    """The lines of a form: one, but of a model one for each of its claims and other parts."""
    if form[0] != "model":
        return [write(form)]
    made = ["(model " + form[1]] + ["  " + write(it) for it in form[2:]]
    return made[:-1] + [made[-1] + ")"]


def text_of(forms):
    """The text of forms."""
    return "".join(line + "\n" for form in forms for line in lines(form))


def is_claim(form):
    """Whether a form of a model is a claim."""
    return isinstance(form, list) and form[0] in CLAIMS


def without_refused(program, forms):
    """The forms without those that have a refused use of a row; and these forms, each with whether the program refuses
    it by E15. What uses a refused definition is left out, too."""
    kept, tried, refused = [], [], set()
    for form in forms:
        above = [it for it in kept if it[0] != "model"]
        if words(form) & refused:
            continue
        if is_right(above + [form]):
            kept.append(form)
            continue
        refused |= {form[1][0]} if form[0] == "define" else set()
        tried.append((form, is_refused(program, above + [form], "E15")))
    return kept, tried


def words(form):
    """The words of a form."""
    return {form} if isinstance(form, str) else set().union(*map(words, form))


def is_right(forms):
    """Whether the last of these forms has no refused use of a row. A definition is translated without its uses, as the
    program does it: by a model that uses it with a value that isn't known, and with terms that do nothing."""
    file, last = File(forms), forms[-1]
    if last[0] == "defaults" or (last[0] == "define" and isinstance(last[1], str)):
        return True
    model = file.models[-1] if last[0] == "model" else Model("", [], {}, [one_use(last[1][0], file)])
    try:
        Translation(file, model)
    except RefusedUse:
        return False
    return True


def one_use(name, file):
    """A term that uses the definition of this name once."""
    names = {"value": "x", "ref": "r", "deferred": "d", "fiber": "f", "poll": "p"}
    given = []
    for _, kind in file.definitions[name].parts:
        given.append(names[kind] if isinstance(kind, str) else ["fn", kind, "0"] if kind else "0")
    bound = [["ref", "r", "0"], ["deferred", "d"], ["start", "f", "0"], ["let", "x", ["get", "r"]]]
    return ["uncancelable", "p"] + bound + [[name] + given]


def without_computed(program, forms):
    """The forms without each `before` that names a fiber which says a computed value; and models with one of these
    claims alone, each with whether the program refuses it by E22."""
    file, kept, tried = File(forms), [], []
    above, models = [it for it in forms if it[0] != "model"], iter(file.models)
    for form in forms:
        if form[0] != "model":
            kept.append(form)
            continue
        made, claims = Translation(file, next(models)), [it for it in form if is_claim(it)]
        refused = [it for it in claims if Claim(it, file.constants).is_refused(made)]
        for claim in refused:
            alone = [it for it in form if it is claim or it not in claims]
            tried.append((alone, is_refused(program, above + [alone], "E22")))
        if len(refused) < len(claims):
            kept.append([it for it in form if it not in refused])
    return kept, tried


def is_refused(program, forms, code):
    """Whether the program refuses these forms by this fault alone."""
    try:
        tested(program, forms)
    except Refused as refused:
        return set(refused.codes.values()) == {code}
    return False

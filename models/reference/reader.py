"""Model files as text and as nested lists.

A form is a word (a `str`) or a list of forms. `read` makes the forms of a text, `write` their text. `items` sorts the
forms of a file into constants, definitions and models (docs/MODEL_FILES.md, "Items")."""
import re

TOKEN = re.compile(r'[ \t\r\n]+|;[^\n]*|(?P<token>[()]|"[^"\n]*"|[^ \t\r\n();"]+)')
NUMBER = re.compile(r"(0|-?[1-9][0-9]*)\Z")
BOUNDS = ("worlds", "entries", "fibers", "refs", "deferreds", "count", "times", "seed")
PREDEFINED = """
(define (wait f:fiber) (join f _ 0 _ 0 0))
(define (value-of f:fiber) (join f x x e (raise e) (canceled)))
(define (spin-until-zero r:ref) (handle (forever (if0 (get r) (raise 1) (cede))) _ 0))
(define (ignore-errors (e)) (handle (e) _ 0))
(define (guarantee-case (e) (done) (failed) (cut)) (bracketcase _ 0 (e) _ (done) _ (failed) (cut)))
"""


class Definition:
    """A definition with parts: pairs (name, kind), and its statements. The kind of a part that is a term is a list of
    the names that the term takes."""

    def __init__(self, parts, body):
        self.parts, self.body = parts, body


class Model:
    """A model: its name, its claims as forms, its bounds by their words, and the statements of its `run`."""

    def __init__(self, name, claims, bounds, run):
        self.name, self.claims, self.bounds, self.run = name, claims, bounds, run


class File:
    """What a file defines: its constants (numbers by name), its definitions by name, and its models in order."""

    def __init__(self, forms):
        self.constants, self.definitions, self.models = {}, {}, []
        defaults = {}
        for form in read(PREDEFINED) + forms:
            if form[0] == "defaults":
                defaults.update((word, int(number)) for word, number in form[1:])
            elif form[0] == "model":
                self.models.append(model(form, defaults))
            elif isinstance(form[1], str):
                self.constants[form[1]] = int(form[2])
            else:
                self.definitions[form[1][0]] = Definition([part(it) for it in form[1][1:]], form[2:])


def read(text):
    """The forms of a text. Raises ValueError if its brackets don't match."""
    stack = [[]]
    for found in TOKEN.finditer(text):
        token = found["token"]
        if token == "(":
            stack.append([])
        elif token == ")":
            form = stack.pop()
            stack[-1].append(form)
        elif token:
            stack[-1].append(token)
    if len(stack) != 1:
        raise ValueError("a bracket isn't closed")
    return stack[0]


def write(form):
    """The text of a form, on one line."""
    return form if isinstance(form, str) else "(%s)" % " ".join(map(write, form))


def part(form):
    """The name and the kind of a definition's part."""
    if isinstance(form, list):
        return form[0], form[1:]
    name, _, kind = form.partition(":")
    return name, kind or "value"


def model(form, defaults):
    """The model of an item `(model NAME ..)`."""
    bounds, claims, run = dict(defaults), [], None
    for it in form[2:]:
        if isinstance(it, str):
            continue
        if it[0] == "run":
            run = it[1:]
        elif it[0] in BOUNDS:
            bounds[it[0]] = int(it[1])
        else:
            claims.append(it)
    return Model(form[1], claims, bounds, run)

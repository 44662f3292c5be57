"""Random model files: definitions, and models of which most have several answers."""
import sys

from random_programs import Maker
from random_claims import Claimer
from reader import File
from search import Search, TooLarge
from translate import Refused, Translation

# How many models a file has, the most states of a model, and how many more random models are tried than are kept.
MANY, MOST, TRIED = 6, 1500, 10
# (terms nest deeper than Python's calls do by default)
sys.setrecursionlimit(20000)


def random_file(seed):
    """The forms of a random file."""
    maker = Maker(seed)
    maker.constants = [("N", maker.random.randint(0, 2)), ("TWO", 2)][:maker.random.randint(0, 2)]
    forms = [["define", name, str(value)] for name, value in maker.constants]
    forms += [maker.definition(number) for number in range(maker.random.randint(0, 3))]
    above, models = list(forms), 0
    for _ in range(MANY * TRIED):
        if models == MANY:
            break
        if maker.chance(0.05):
            above.append(["defaults"] + maker.bounds())
            forms.append(above[-1])
        made = random_model(maker, above, "m%d" % (models + 1))
        if made:
            forms.append(made)
            models += 1
    return forms


def random_model(maker, above, name):
    """A random model below these forms, or None if it is too large, or if it has one answer and others are better."""
    run, head = maker.program()
    bounds = maker.bounds()
    file = File(above + [["model", name] + bounds + [["run"] + run]])
    model = file.models[0]
    try:
        made = Translation(file, model)
        search = Search(made.terms, made.term, model.bounds, says=True, most=MOST)
    except (TooLarge, Refused, RecursionError):
        return None
    if len(search.answers()) < 2 and maker.chance(0.7):
        return None
    return ["model", name] + bounds + Claimer(maker, made, search, head).claims() + [["run"] + run]

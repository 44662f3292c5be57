"""Core terms, each of which is kept once, and the expansion of the derived words (docs/FORMATS.md, "Expansion").

A term has a word and parts: terms, numbers, labels (tuples), binders and uses of names. A binder is a plain `str`, and
no two binders of a program have the same one. So a value can be put in place of a name without a look at scopes."""


class Use(str):
    """A use of a name."""


class Poll(tuple):
    """A poll value: the number of a fiber and of one of its masks."""


class Term:
    """A term. Equal terms are one object. `names` are the names that it uses and doesn't bind, `masks` the numbers of
    the masks that it mentions."""

    __slots__ = ("word", "parts", "names", "masks")

    def __init__(self, word, parts):
        self.word, self.parts = word, parts
        names, masks, binders = set(), set(), set()
        for it in parts:
            if isinstance(it, Term):
                names |= it.names
                masks |= it.masks
            elif isinstance(it, Use):
                names.add(it)
            elif isinstance(it, str):
                binders.add(it)
            elif isinstance(it, Poll):
                masks.add(it[1])
        if word == "Masked":
            masks.add(parts[0])
        self.names, self.masks = frozenset(names - binders), frozenset(masks)

    def __repr__(self):
        return "(%s)" % " ".join([self.word] + [repr(it) if isinstance(it, Term) else str(it) for it in self.parts])


class Terms:
    """All terms of one program, and the number of names that were made for it."""

    def __init__(self):
        self.known, self.replaced, self.made = {}, {}, 0

    def make(self, word, *parts):
        """The term with this word and these parts."""
        term = self.known.get((word, parts))
        if term is None:
            term = self.known[word, parts] = Term(word, parts)
        return term

    def name(self, spelling):
        """A new name: its binder and its use."""
        self.made += 1
        binder = "%s#%d" % (spelling, self.made)
        return binder, Use(binder)

    def replace(self, term, name, value):
        """The term with the value in place of the name."""
        if name not in term.names:
            return term
        key = (term, name, value)
        found = self.replaced.get(key)
        if found is None:
            parts = [self.replace(it, name, value) if isinstance(it, Term) else it for it in term.parts]
            parts = [value if isinstance(it, Use) and it == name else it for it in parts]
            found = self.replaced[key] = self.make(term.word, *parts)
        return found

    def pure(self, value):
        """`(pure value)`"""
        return self.make("pure", value)

    def seq(self, *terms):
        """The terms in order, as `seq` of two parts each."""
        return terms[0] if len(terms) == 1 else self.make("seq", terms[0], self.seq(*terms[1:]))

    def ended(self, fiber):
        """Waits for the end of a fiber, and gives 0."""
        x, _ = self.name("x")
        y, _ = self.name("y")
        return self.make("join", fiber, x, self.pure(0), y, self.pure(0), self.pure(0))

    def cut_or_never(self, poll):
        """Requests the own cancellation in a poll, and waits without end."""
        return self.seq(self.make("poll", poll, self.make("canceled")), self.make("never"))

    def guarantee(self, body, fin):
        """`(guarantee body fin)`"""
        (p, poll), (x, value), (y, code), (z, _) = map(self.name, "pxyz")
        guarded = self.make("oncancel", self.make("poll", poll, body), fin)
        failed = self.seq(self.make("handle", z, fin, self.pure(0)), self.make("raise", code))
        handled = self.make("handle", y, guarded, failed)
        return self.make("uncancelable", p, self.make("let", x, handled, self.seq(fin, self.pure(value))))

    def bracketcase(self, poll, binders, parts):
        """`(bracketcase x acq body y rs z re rc)` with these binders x, y, z and these terms acq, body, rs, re, rc. The
        poll is the name (binder and use) of the outer mask's poll. Marks are left out: no claim sees them."""
        (x, y, z), (acq, body, done, failed, cut) = binders, parts
        p, outer = poll
        (q, inner), (w, _) = self.name("q"), self.name("w")
        value, code = Use(y), Use(z)
        used = self.make("oncancel", self.make("poll", inner, self.make("poll", outer, body)), cut)
        after_error = self.seq(self.make("handle", w, failed, self.pure(0)), self.make("raise", code))
        handled = self.make("handle", z, used, after_error)
        released = self.make("let", y, handled, self.seq(done, self.pure(value)))
        return self.make("uncancelable", p, self.make("let", x, acq, self.make("uncancelable", q, released)))

    def pair(self, poll, sides, then):
        """Starts both sides of a race, waits until one of them has ended, and goes on with `then` of the uses of the
        number of that side and of the two fibers."""
        (d, first), (f, left), (g, right), (h, one), (i, two), (w, which) = map(self.name, "dfghiw")
        bodies = [self.guarantee(side, self.make("complete", first, number)) for number, side in enumerate(sides)]
        both = self.seq(self.ended(one), self.ended(two))
        cancel_right = self.make("start", i, CANCELER, self.make("cancel", right), both)
        cancelers = self.make("start", h, CANCELER, self.make("cancel", left), cancel_right)
        waits = self.make("oncancel", self.make("poll", poll, self.make("await", first)), cancelers)
        goes_on = self.make("let", w, waits, then(which, left, right))
        starts = self.make("start", f, LEFT, bodies[0], self.make("start", g, RIGHT, bodies[1], goes_on))
        return self.make("deferred", d, starts)

    def awaits(self, poll, fiber):
        """Waits in the poll for a fiber, and cancels it if the wait is cut."""
        return self.make("oncancel", self.make("poll", poll, self.ended(fiber)), self.make("cancel", fiber))

    def race(self, left, right):
        """`(race left right)`"""
        p, poll = self.name("p")

        def won(winner, loser):
            (x, value), (y, code), (u, other), (v, failed) = map(self.name, "xyuv")
            lost = self.make("cancel", loser)
            instead = self.make("join", loser, u, self.pure(other), v, self.make("raise", failed),
                                self.cut_or_never(poll))
            return self.make("join", winner, x, self.seq(lost, self.pure(value)), y,
                             self.seq(lost, self.make("raise", code)), self.seq(self.awaits(poll, loser), instead))

        def then(which, one, two):
            return self.make("if0", which, won(one, two), won(two, one))

        return self.make("uncancelable", p, self.pair(poll, (left, right), then))

    def both(self, left, right, binders, then):
        """`(both left right x y then)` with these binders x and y."""
        p, poll = self.name("p")
        r, second = self.name("r")

        def ended(first, other, first_is_left):
            (u, mine), (e, code), (v, its), (c, failed) = map(self.name, "uevc")
            at_left, at_right = (mine, its) if first_is_left else (its, mine)
            lost = self.make("cancel", other)
            together = self.seq(self.make("set", second, at_right), self.pure(at_left))
            joined = self.make("join", other, v, together, c, self.make("raise", failed), self.cut_or_never(poll))
            return self.make("join", first, u, self.seq(self.awaits(poll, other), joined), e,
                             self.seq(lost, self.make("raise", code)), self.seq(lost, self.cut_or_never(poll)))

        def choose(which, one, two):
            return self.make("if0", which, ended(one, two, True), ended(two, one, False))

        x, y = binders
        masked = self.make("uncancelable", p, self.pair(poll, (left, right), choose))
        rest = self.make("let", x, masked, self.make("let", y, self.make("get", second), then))
        return self.make("ref", r, HIDDEN, 0, rest)


# Labels: the name by which a fiber or a ref is known to claims, and its number in a row.
MAIN, LEFT, RIGHT = ("main", None), ("left", None), ("right", None)
# A fiber that a race starts to cancel a side, or the ref of a `both`: no fiber or ref of the file.
CANCELER = HIDDEN = (None, "hidden")
# A fiber or a ref that is bound by `_`.
UNNAMED = (None, None)

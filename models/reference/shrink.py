"""Makes a file with a difference smaller, as long as the difference stays."""

# The most files that are tried.
TRIES = 400


def smallest(forms, kind, differences):
    """The smallest file found with a difference of this kind. `differences` are those of a file."""
    def has_it(tried):
        try:
            return any(it[0] == kind for it in differences(tried))
        except Exception:  # pylint: disable=broad-except; a smaller file need not be one that the reference reads
            return False

    left, shrunk = TRIES, True
    while shrunk and left > 0:
        shrunk = False
        for tried in smaller(forms):
            left -= 1
            if left <= 0:
                break
            if has_it(tried):
                forms, shrunk = tried, True
                break
    return forms


def smaller(form):
    """Forms with one part less, or with a part in place of the form around it, the largest change first."""
    if isinstance(form, str):
        return
    for place in range(len(form) - 1, -1, -1):
        yield form[:place] + form[place + 1:]
    for place, part in enumerate(form):
        if not isinstance(part, list):
            continue
        for it in ["0"] + [it for it in part if isinstance(it, list)]:
            yield form[:place] + [it] + form[place + 1:]
        for it in smaller(part):
            yield form[:place] + [it] + form[place + 1:]

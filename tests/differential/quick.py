"""The model, with answers of its functions kept while one case is made: the same answers, in a part of the time."""

from model import record, resolver

kept = {}


def forget():
    """Before each case."""
    kept.clear()


def by_identity(arguments):
    """Arguments that are no numbers are told apart by their identity; `kept` holds them, so that none is used anew."""
    return tuple(one if isinstance(one, int) else id(one) for one in arguments)


def by_elements(arguments):
    """The one argument is a list, of which slices are made: its elements' identities."""
    return tuple(map(id, arguments[0]))


def remembering(function, key_of=by_identity):
    def remembered(*arguments):
        key = function, key_of(arguments)
        if key not in kept:
            kept[key] = arguments, function(*arguments)
        return kept[key][1]

    return remembered


def start():
    for name in ("well_formed", "permitted_positions", "enabled_positions", "reached", "shortest_chain", "reach"):
        setattr(resolver, name, remembering(getattr(resolver, name)))
    record.carriers = remembering(record.carriers, by_elements)

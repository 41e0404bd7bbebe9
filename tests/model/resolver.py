"""Permitted and enabled: document 01's section of that name, restated in Python.

A record is that of model/record.py. A set of positions is a Python set, and in an answer a word with a bit for each.
The functions under "Answers" give the refusal number first, and zeros beside a refusal. Codes such as R3 name readings
of document 01.

Standard library only, Python 3.9 or later.
"""

import collections

from model.record import HIGHEST_BIT, MOST_DEPENDENCIES, MOST_FEATURES, Feature
from model.refusals import ACCEPTED, FEATURE_ENABLED, LEVEL, POSITION, RECORD_FORM, SHORT_BUFFER

USER, SYSTEM, HYPERVISOR = range(3)

# "features the hypervisor supports by its own code, the same for the system (by position), and the HFSCR and FSCR bits
# that may be set"
Grants = collections.namedtuple("Grants", "hypervisor system hfscr fscr")

# The bit of each property in `given`.
GIVEN_BITS = {name: number for number, name in enumerate(Feature._fields[2:])}

# "required where that bit 0 is set": the bit number, and the cell that the bit is in. `hwcap-bit-nr` is required by no
# cell (document 02, A2: "11 and 14 for a missing `hwcap-bit-nr` are withdrawn").
BIT_NUMBERS = {"hfscr_bit_nr": "hv_support", "fscr_bit_nr": "os_support", "hwcap_bit_nr": None}


def bit(word, number):
    return word >> number & 1 == 1


def word_of(numbers):
    """The word with these bits."""
    return sum(2**number for number in set(numbers))


# Features


def cell(feature, name):
    """The cell of a property, or None where it is not given: "Absent and zero differ." """
    return getattr(feature, name) if bit(feature.given, GIVEN_BITS[name]) else None


def is_odd(value):
    """Whether bit 0 of a cell is set; of one that is not given it is not."""
    return value is not None and value % 2 == 1


def needs(record, position):
    """The positions that a feature depends on, in the order of its slots."""
    first = MOST_DEPENDENCIES * position
    return record.slots[first : first + (cell(record.features[position], "dependencies") or 0)]


def is_required(feature, name):
    """Whether a feature has to give a bit number."""
    support = BIT_NUMBERS[name]
    return support is not None and is_odd(cell(feature, support))


def well_formed(record):
    """What 14 lists, and nothing else (R1)."""
    if record.count > MOST_FEATURES:
        return False
    for position, feature in enumerate(record.features[: record.count]):
        for name in BIT_NUMBERS:
            number = cell(feature, name)
            # "a given bit number above 63, one missing where required"
            if number is not None and number > HIGHEST_BIT:
                return False
            if number is None and is_required(feature, name):
                return False
        # "more than 16 dependencies, or one not below the count"
        if (cell(feature, "dependencies") or 0) > MOST_DEPENDENCIES:
            return False
        if any(needed >= record.count for needed in needs(record, position)):
            return False
    return True


# Permitted


def is_supported(support, number, granted, own_code):
    """Absent, or bit 0 set and its register bit granted, or supported by own code (R4, R5)."""
    return support is None or own_code or (support % 2 == 1 and bit(granted, number))


def is_permitted(feature, position, level, grants):
    """The three conditions, in document 01's order."""
    usable, hv, os, hfscr, fscr = (
        cell(feature, name)
        for name in ("usable_privilege", "hv_support", "os_support", "hfscr_bit_nr", "fscr_bit_nr")
    )
    if usable is None or not bit(usable, level):
        return False
    if level < HYPERVISOR and not is_supported(hv, hfscr, grants.hfscr, bit(grants.hypervisor, position)):
        return False
    return level > USER or is_supported(os, fscr, grants.fscr, bit(grants.system, position))


def permitted_positions(record, level, grants):
    """Only those below the count are asked about, so mask bits from there on are ignored."""
    features = record.features[: record.count]
    return {at for at, feature in enumerate(features) if is_permitted(feature, at, level, grants)}


# Enabled


def reached(record, position):
    """A feature and "all it needs, directly or not", by breadth-first search."""
    found = {position}
    queue = collections.deque(found)
    while queue:
        for needed in needs(record, queue.popleft()):
            if needed not in found:
                found.add(needed)
                queue.append(needed)
    return found


def enabled_positions(record, permitted):
    """A feature is left out exactly when it reaches one that is not permitted."""
    return {position for position in range(record.count) if reached(record, position) <= permitted}


def enabled_by_rows(record, rows, permitted):
    """ "when its row holds only permitted ones", below the count (R3)"""
    word = word_of(permitted)
    return {position for position in range(record.count) if rows[position] & ~word == 0}


# Chains


def step_on(record, chains, passed):
    """The chains that are one position longer and end where none did before: to each feature the smallest."""
    longer = {}
    for chain in chains:
        for needed in needs(record, chain[-1]):
            if needed not in passed:
                longer.setdefault(needed, []).append([*chain, needed])
    return [first_of(same_end) for same_end in longer.values()]


def first_of(chains):
    """Of equally short ones "the one with the smallest positions, compared from the front"."""
    return min(chains)


def shortest_chain(record, permitted, position):
    """The chain of a feature, by breadth-first search; None where it is enabled."""
    chains = [[position]]
    passed = {position}
    while chains:
        ended = [chain for chain in chains if chain[-1] not in permitted]
        if ended:
            return first_of(ended)
        chains = step_on(record, chains, passed)
        passed.update(chain[-1] for chain in chains)
    return None


# Words


def capability_bits(features):
    """The `hwcap-bit-nr` of each feature; one with none "adds nothing to the capability words" (document 02, A2)."""
    numbers = {cell(feature, "hwcap_bit_nr") for feature in features}
    return word_of(numbers - {None})


def register_bits(features, support, number, granted):
    """ "the granted bits of enabled features whose support bit 0 is set" (R5)"""
    numbers = {cell(feature, number) for feature in features if is_odd(cell(feature, support))}
    return word_of(numbers) & granted


def word_values(record, level, grants):
    """Both capability words, HFSCR and FSCR; zero at the levels that they are not for (R9)."""
    enabled = enabled_positions(record, permitted_positions(record, level, grants))
    features = [record.features[position] for position in sorted(enabled)]
    hwcap = hfscr = fscr = 0
    if level == USER:
        hwcap = capability_bits(features)
        fscr = register_bits(features, "os_support", "fscr_bit_nr", grants.fscr)
    if level < HYPERVISOR:
        hfscr = register_bits(features, "hv_support", "hfscr_bit_nr", grants.hfscr)
    return hwcap % 2**32, hwcap >> 32, hfscr, fscr


# Answers


def form_refusal(record):
    return ACCEPTED if well_formed(record) else RECORD_FORM


def asked_refusal(record, level):
    """14, then 15 (R2)."""
    return form_refusal(record) or (LEVEL if level > HYPERVISOR else ACCEPTED)


def set_and_count(positions):
    """ "the count is the number of ones in the set" """
    return word_of(positions), len(positions)


def permitted(record, level, grants):
    """(number, set)"""
    number = asked_refusal(record, level)
    return (number, 0) if number else (number, word_of(permitted_positions(record, level, grants)))


def enable(record, level, grants):
    """(number, set, count)"""
    number = asked_refusal(record, level)
    if number:
        return number, 0, 0
    return (number, *set_and_count(enabled_positions(record, permitted_positions(record, level, grants))))


def reach(record):
    """(number, 64 rows), "zero from the count on" """
    number = form_refusal(record)
    many = 0 if number else record.count
    return number, [word_of(reached(record, at)) if at < many else 0 for at in range(MOST_FEATURES)]


def enable_by_table(record, rows, level, grants):
    """(number, set, count)"""
    number = asked_refusal(record, level)
    if number:
        return number, 0, 0
    return (number, *set_and_count(enabled_by_rows(record, rows, permitted_positions(record, level, grants))))


def chain(record, level, grants, position, buffer):
    """(number, length, the buffer's bytes afterwards). "Order: 14, 15, 16, 17, 18." """
    number = asked_refusal(record, level)
    if not number and position >= record.count:
        number = POSITION
    if number:
        return number, 0, buffer
    found = shortest_chain(record, permitted_positions(record, level, grants), position)
    if found is None:
        return FEATURE_ENABLED, 0, buffer
    if len(buffer) < len(found):
        return SHORT_BUFFER, 0, buffer
    return ACCEPTED, len(found), bytes(found) + buffer[len(found) :]


def words(record, level, grants):
    """(number, first and second capability word, HFSCR, FSCR)"""
    number = asked_refusal(record, level)
    return (number, 0, 0, 0, 0) if number else (number, *word_values(record, level, grants))

"""Faults that are seeded into the model, to show that the differential test finds them."""

from model import properties, record, resolver, strings
from vectors.wrong_models import (
    absent_is_zero,
    cells_ascend,
    compatible_first_only,
    counted_from_1,
    later_bits_in_first_edition,
    second_smallest,
)

SUPPORT_BITS = 2 ** resolver.GIVEN_BITS["hv_support"] | 2 ** resolver.GIVEN_BITS["os_support"]

feature_of, read = record.feature_of, record.read


def absent_as_given(node):
    """A support cell that is absent is taken for a zero that is given."""
    feature = feature_of(node)
    return feature._replace(given=feature.given | SUPPORT_BITS)


def place_off_by_4(data):
    """Of a dependency on an unknown phandle."""
    number, place, whole = read(data)
    return number, place + 4 if number == 13 else place, whole


# By name: what is put in place of what.
FAULTS = {
    "absent-is-zero": ((record, "feature_of", absent_as_given), (resolver, "is_supported", absent_is_zero)),
    "place-off-by-4": ((record, "read", place_off_by_4),),
    "second-smallest-chain": ((resolver, "first_of", second_smallest),),
    "place-from-1": ((strings, "place", counted_from_1),),
    "compatible-first-only": ((record, "is_compatible", compatible_first_only),),
    "radix-cells-ascend": ((properties, "radix_encodings", cells_ascend),),
    "later-bits-in-first-edition": ((properties, "pa_features", later_bits_in_first_edition),),
}


def seed(name):
    for module, function, wrong in FAULTS[name]:
        setattr(module, function, wrong)

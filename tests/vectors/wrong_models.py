"""Tries wrong models on the vectors: of the resolver on kinds `b`, `c`, `e` and `n`, of the reader of the feature record on
kind `r`, of writers into a lent buffer on kinds `w` and `c`, of sizes on kinds `p` and `s`, of radix encodings on kind `x`, of
attributes on kind `a`, of string lists on kind `m`, of names on kinds `t`, `r` and `l`, each of these by itself. Each must
change some lines.

    python3 tests/vectors/wrong_models.py

Standard library only, Python 3.9 or later.
"""

import itertools
import pathlib
import re
import sys
from unittest import mock

# No compiled files beside the sources.
sys.dont_write_bytecode = True

sys.path.insert(0, str(pathlib.Path(__file__).resolve().parent.parent))

# Found by the path above.
from model import properties, record as reader, resolver, strings, tree  # noqa: E402
from vectors import damage, lookups, trees  # noqa: E402
from vectors.make import READER, RESOLVER  # noqa: E402
from vectors.properties import shown, vectors as property_vectors  # noqa: E402
from vectors.queries import answer  # noqa: E402
from vectors.records import answer as record_answer  # noqa: E402
from vectors.strings import answer as string_answer, vectors as string_vectors  # noqa: E402

# The right ones, which stand in their module no more while a wrong one is tried.
is_supported, is_odd, bit, cell = resolver.is_supported, resolver.is_odd, resolver.bit, resolver.cell
is_required, is_permitted, well_formed = resolver.is_required, resolver.is_permitted, resolver.well_formed
enabled_positions, word_values = resolver.enabled_positions, resolver.word_values


def absent_is_zero(support, number, granted, own_code):
    return is_supported(0 if support is None else support, number, granted, own_code)


def zero_is_absent(support, number, granted, own_code):
    return is_supported(support or None, number, granted, own_code)


def own_code_only_without_bit(support, number, granted, own_code):
    return is_supported(support, number, granted, own_code and not is_odd(support))


def not_granted_but_set(features, support, number, granted):
    return resolver.word_of(cell(feature, number) for feature in features if is_odd(cell(feature, support)))


def second_smallest(chains):
    return sorted(chains)[:2][-1]


def smallest_from_the_back(chains):
    return min(chains, key=lambda chain: chain[::-1])


def one_sweep(record, permitted):
    return {position for position in permitted if set(resolver.needs(record, position)) <= permitted}


def upward(record, permitted):
    """From features without needs, which loses rings."""
    found = set()
    for _ in range(record.count):
        found |= {position for position in permitted if set(resolver.needs(record, position)) <= found}
    return found


def bits_past_count_ignored(record, rows, permitted):
    outside = ~resolver.word_of(permitted) & (2**record.count - 1)
    return {position for position in range(record.count) if rows[position] & outside == 0}


def zero_row_is_none(record, rows, permitted):
    outside = ~resolver.word_of(permitted)
    return {position for position in range(record.count) if rows[position] and rows[position] & outside == 0}


def level_before_form(record, level):
    return 15 if level > 2 else resolver.form_refusal(record)


def absent_number_tested(feature, name):
    return getattr(feature, name) if name in resolver.BIT_NUMBERS else cell(feature, name)


# Document 02, A2


def has_user_bit(feature):
    return is_odd(cell(feature, "usable_privilege"))


def has_capability_bit(feature):
    return cell(feature, "hwcap_bit_nr") is not None


def missing_is_bit_0(feature, name, missing):
    """This bit number may be missing, and then it is 0."""
    number = cell(feature, name)
    return 0 if name == missing and number is None else number


def no_capability_bit_is_bit_0(feature, name):
    return missing_is_bit_0(feature, name, "hwcap_bit_nr")


def missing_hfscr_bit_is_bit_0(feature, name):
    return missing_is_bit_0(feature, name, "hfscr_bit_nr")


def missing_fscr_bit_is_bit_0(feature, name):
    return missing_is_bit_0(feature, name, "fscr_bit_nr")


def capability_bit_0_is_none(features):
    numbers = [cell(feature, "hwcap_bit_nr") for feature in features]
    return resolver.word_of(number for number in numbers if number)


def absent_capability_bit_tested(feature, name):
    return feature.hwcap_bit_nr if name == "hwcap_bit_nr" else cell(feature, name)


def absent_capability_bit_set(features):
    """The number in the cell is taken, whatever is given."""
    return resolver.word_of(feature.hwcap_bit_nr % 64 for feature in features)


def user_bit_requires_number(feature, name):
    """Document 01's rule."""
    return is_required(feature, name) or (name == "hwcap_bit_nr" and has_user_bit(feature))


def capability_bit_permits(feature, position, level, grants):
    """At user level only features with a capability bit are permitted."""
    return is_permitted(feature, position, level, grants) and (level > 0 or has_capability_bit(feature))


def capability_bit_enables(record, permitted):
    """User features without one are left out, and what needs them is not."""
    features = record.features
    lacking = {at for at in permitted if has_user_bit(features[at]) and not has_capability_bit(features[at])}
    return enabled_positions(record, permitted) - lacking


def with_good_numbers(record, is_tested):
    """The record with capability bit 0 in the features that are not tested."""
    features = [one if is_tested(one) else one._replace(hwcap_bit_nr=0) for one in record.features]
    return record._replace(features=features)


def high_capability_bit_fits(record):
    return well_formed(with_good_numbers(record, lambda feature: False))


def high_capability_bit_fits_without_user_bit(record):
    return well_formed(with_good_numbers(record, has_user_bit))


def capability_words_at_all_levels(record, level, grants):
    enabled = enabled_positions(record, resolver.permitted_positions(record, level, grants))
    hwcap = resolver.capability_bits([record.features[at] for at in enabled])
    return (hwcap % 2**32, hwcap >> 32, *word_values(record, level, grants)[2:])


WRONG = (
    ("is_supported", absent_is_zero),
    ("is_supported", zero_is_absent),
    ("is_supported", own_code_only_without_bit),
    ("register_bits", not_granted_but_set),
    ("first_of", second_smallest),
    ("first_of", smallest_from_the_back),
    ("enabled_positions", one_sweep),
    ("enabled_positions", upward),
    ("enabled_by_rows", bits_past_count_ignored),
    ("enabled_by_rows", zero_row_is_none),
    ("asked_refusal", level_before_form),
    ("cell", absent_number_tested),
    ("cell", no_capability_bit_is_bit_0),
    ("cell", missing_hfscr_bit_is_bit_0),
    ("cell", missing_fscr_bit_is_bit_0),
    ("capability_bits", capability_bit_0_is_none),
    ("cell", absent_capability_bit_tested),
    ("capability_bits", absent_capability_bit_set),
    ("is_required", user_bit_requires_number),
    ("is_permitted", capability_bit_permits),
    ("enabled_positions", capability_bit_enables),
    ("well_formed", high_capability_bit_fits),
    ("well_formed", high_capability_bit_fits_without_user_bit),
    ("word_values", capability_words_at_all_levels),
)


# The right ones of the reader.
requires, property_refusal, feature_of = reader.is_required, reader.property_refusal, reader.feature_of

CAPABILITY_BIT = 2 ** resolver.GIVEN_BITS["hwcap_bit_nr"]


def gives_user_bit(given):
    return reader.number_of(given[b"usable-privilege"]) % 2 == 1


def user_bit_requires_property(name, given):
    """Document 01's rule."""
    return requires(name, given) or (name == b"hwcap-bit-nr" and gives_user_bit(given))


def hfscr_bit_optional(name, given):
    return name != b"hfscr-bit-nr" and requires(name, given)


def fscr_bit_optional(name, given):
    return name != b"fscr-bit-nr" and requires(name, given)


def high_capability_bit_read(name, given, earlier):
    number = property_refusal(name, given, earlier)
    return 0 if name == b"hwcap-bit-nr" and number == 12 else number


def high_capability_bit_read_without_user_bit(name, given, earlier):
    number = property_refusal(name, given, earlier)
    return 0 if name == b"hwcap-bit-nr" and number == 12 and not gives_user_bit(given) else number


def capability_bit_given_always(node):
    """None is a given bit 0."""
    feature = feature_of(node)
    return feature._replace(given=feature.given | CAPABILITY_BIT)


def capability_bit_only_of_users(node):
    """A given one is kept where the user bit is set."""
    feature = feature_of(node)
    return feature if has_user_bit(feature) else feature._replace(given=feature.given & ~CAPABILITY_BIT, hwcap_bit_nr=0)


# Document 02, A3: the strings of the container

is_device_type, is_compatible, container_refusal = reader.is_device_type, reader.is_compatible, reader.container_refusal
strings_of = strings.strings_of

COMPATIBLE, (SHORT, LONG) = reader.COMPATIBLE, reader.DEVICE_TYPES


def device_type_with_second_string(value):
    return strings_of(value)[:1] in ([SHORT], [LONG])


def device_type_at_any_place(value):
    return SHORT in strings_of(value) or LONG in strings_of(value)


def device_type_with_empty_strings(value):
    return [string for string in strings_of(value) if string] in ([SHORT], [LONG])


def device_type_twice(value):
    return is_device_type(value) or strings_of(value) in ([SHORT, SHORT], [LONG, LONG])


def device_type_without_end(value):
    return is_device_type(value) or value in (SHORT, LONG)


def device_type_with_other_end(value):
    """The last byte is any."""
    return value[:-1] in (SHORT, LONG)


def device_type_by_its_front(value):
    return value.startswith((SHORT, LONG))


def shorter_device_type_only(value):
    return strings_of(value) == [SHORT]


def longer_device_type_only(value):
    return strings_of(value) == [LONG]


def compatible_first_only(value):
    return strings_of(value)[:1] == [COMPATIBLE]


def compatible_last_only(value):
    return strings_of(value)[-1:] == [COMPATIBLE]


def compatible_as_only_string(value):
    """Document 01's rule."""
    return strings_of(value) == [COMPATIBLE]


def compatible_once(value):
    return strings_of(value).count(COMPATIBLE) == 1


def compatible_without_empty_strings(value):
    return is_compatible(value) and b"" not in strings_of(value)


def compatible_below_256(value):
    return COMPATIBLE in strings_of(value)[:256]


def compatible_without_end(value):
    """The last string stands without its zero byte."""
    return COMPATIBLE in value.split(b"\0")


def compatible_before_unended_string(value):
    """The strings in front of one without its zero byte stand."""
    return COMPATIBLE in value.split(b"\0")[:-1]


def compatible_with_either_name(value):
    return is_compatible(value) or SHORT in strings_of(value)


def compatible_as_part(value):
    return COMPATIBLE in value and bool(strings_of(value))


def compatible_in_either_case(value):
    return COMPATIBLE in strings_of(value.lower())


def container_strings_unread(given):
    """Only `isa` is looked at."""
    return 0 if len(given.get(b"isa", b"")) == 4 else 11


def repeated_device_type_is_9(given):
    number = container_refusal(given)
    names = strings_of(given.get(b"device_type", b""))
    return 9 if number and len(set(names)) < len(names) else number


def repeated_compatible_is_9(given):
    names = strings_of(given.get(b"compatible", b""))
    return container_refusal(given) or (9 if names.count(COMPATIBLE) > 1 else 0)


def second_device_type_is_8(given):
    number = container_refusal(given)
    return 8 if number and len(strings_of(given.get(b"device_type", b""))) > 1 else number


def name_not_found_is_10(given):
    """The number of the matching is handed on."""
    number = container_refusal(given)
    return 10 if number and not is_compatible(given.get(b"compatible", b"")) else number


def device_type_not_found_is_10(given):
    number = container_refusal(given)
    return 10 if number and not is_device_type(given.get(b"device_type", b"")) else number


WRONG_CONTAINER = (
    ("is_device_type", device_type_with_second_string),
    ("is_device_type", device_type_at_any_place),
    ("is_device_type", device_type_with_empty_strings),
    ("is_device_type", device_type_twice),
    ("is_device_type", device_type_without_end),
    ("is_device_type", device_type_with_other_end),
    ("is_device_type", device_type_by_its_front),
    ("is_device_type", shorter_device_type_only),
    ("is_device_type", longer_device_type_only),
    ("is_compatible", compatible_first_only),
    ("is_compatible", compatible_last_only),
    ("is_compatible", compatible_as_only_string),
    ("is_compatible", compatible_once),
    ("is_compatible", compatible_without_empty_strings),
    ("is_compatible", compatible_below_256),
    ("is_compatible", compatible_without_end),
    ("is_compatible", compatible_before_unended_string),
    ("is_compatible", compatible_with_either_name),
    ("is_compatible", compatible_as_part),
    ("is_compatible", compatible_in_either_case),
    ("container_refusal", container_strings_unread),
    ("container_refusal", repeated_device_type_is_9),
    ("container_refusal", repeated_compatible_is_9),
    ("container_refusal", second_device_type_is_8),
    ("container_refusal", name_not_found_is_10),
    ("container_refusal", device_type_not_found_is_10),
)

WRONG_READER = (
    ("is_required", user_bit_requires_property),
    ("is_required", hfscr_bit_optional),
    ("is_required", fscr_bit_optional),
    ("property_refusal", high_capability_bit_read),
    ("property_refusal", high_capability_bit_read_without_user_bit),
    ("feature_of", capability_bit_given_always),
    ("feature_of", capability_bit_only_of_users),
    *WRONG_CONTAINER,
)


# The right ones that write: unit text and chains. A wrong one makes of the buffer before and of the right answer (number, length, the
# buffer afterwards) another length and buffer.
write_unit, chain = properties.write_unit, resolver.chain


def zero_byte_behind(before, number, length, after):
    return length, after if number or length == len(after) else after[:length] + b"\0" + after[length + 1 :]


def byte_behind_doubled(before, number, length, after):
    return length, after if number or length == len(after) else after[:length] + after[length - 1 : length] + after[length + 1 :]


def later_bytes_cleared(before, number, length, after):
    return length, after if number else after[:length] + bytes(len(after) - length)


def written_at_the_end(before, number, length, after):
    return length, after if number else before[: len(before) - length] + after[:length]


def all_bytes_counted(before, number, length, after):
    return length if number else len(before), after


def cleared_though_refused(before, number, length, after):
    return length, bytes(len(after)) if number else after


def last_byte_cleared_though_18(before, number, length, after):
    return length, after[:-1] + b"\0" if number == 18 and after else after


def room_answered_beside_18(before, number, length, after):
    return len(before) if number == 18 else length, after


def of_unit(wrong):
    def write(unit, buffer):
        number, (length, *after) = write_unit(unit, buffer)
        length, after = wrong(buffer, number, length, bytes(after))
        return number, [length, *after]

    write.__name__ = wrong.__name__
    return write


def of_chain(wrong):
    def told(record, level, grants, position, buffer):
        number, length, after = chain(record, level, grants, position, buffer)
        return (number, *wrong(buffer, number, length, after))

    told.__name__ = wrong.__name__
    return told


def written_as(form):
    """A unit number in another text."""

    def write(unit, buffer):
        text = form.format(unit).encode("ascii")
        return (18, [0, *buffer]) if len(text) > len(buffer) else (0, [len(text), *text, *buffer[len(text) :]])

    write.__name__ = "written as " + form
    return write


def exact_room_is_18(unit, buffer):
    return write_unit(unit, buffer) if len("%x" % unit) != len(buffer) else (18, [0, *buffer])


WRONG_BYTES = (
    zero_byte_behind,
    byte_behind_doubled,
    later_bytes_cleared,
    written_at_the_end,
    all_bytes_counted,
    cleared_though_refused,
    last_byte_cleared_though_18,
    room_answered_beside_18,
)

WRONG_UNIT = (
    *(("write_unit", of_unit(wrong)) for wrong in WRONG_BYTES),
    *(("write_unit", written_as(form)) for form in ("{:X}", "{:08x}", "{:#x}", "0{:x}", "{:d}")),
    ("write_unit", exact_room_is_18),
)

WRONG_CHAIN = tuple(("chain", of_chain(wrong)) for wrong in WRONG_BYTES)


# The right ones of sizes.
page_sizes, segment_sizes, size_table = properties.page_sizes, properties.segment_sizes, properties.size_table


def gap_forgets(value):
    """A gap forgets the size before it: each run of sizes ascends by itself."""
    number, table = segment_sizes(value)
    cells = properties.whole_cells(value)
    runs = [list(run) for gap, run in itertools.groupby(cells, properties.is_gap) if not gap]
    if number == 19 and not any(map(properties.exponents_refusal, runs)):
        return size_table(0, cells)
    return number, table


def gaps_squeezed(value):
    number, (count, *places) = segment_sizes(value)
    sizes = [place for place in places if not properties.is_gap(place)]
    return number, [count, *properties.with_zeros(sizes, len(places))]


def gaps_only_accepted(value):
    number, table = segment_sizes(value)
    cells = properties.whole_cells(value)
    if number == 11 and len(value) == 4 * len(cells) > 0:
        return size_table(0, cells)
    return number, table


def almost_ones_is_gap(cell):
    return cell >= properties.NO_SIZE - 1


def gap_past_count(value):
    """Places past the count are gaps."""
    number, (count, *places) = segment_sizes(value)
    return number, [count, *places[:count], *[properties.NO_SIZE] * (len(places) - count)]


def gaps_only_before_cells(value):
    """11 for gaps beside a size that is out of range."""
    number, table = segment_sizes(value)
    has_gap = properties.NO_SIZE in properties.whole_cells(value)
    return 11 if number == 12 and has_gap else number, table


WRONG_SIZES = (
    ("segment_sizes", gap_forgets),
    ("segment_sizes", gaps_squeezed),
    ("segment_sizes", gaps_only_accepted),
    ("is_gap", almost_ones_is_gap),
    ("segment_sizes", gap_past_count),
    ("segment_sizes", gaps_only_before_cells),
    ("segment_sizes", page_sizes),
    ("page_sizes", segment_sizes),
)


# Document 02, A13: radix encodings

radix_encodings, sizes_refusal = properties.radix_encodings, properties.sizes_refusal
ap_and_exponent, exponents_refusal = properties.ap_and_exponent, properties.exponents_refusal


def ap_at_the_bottom(cell):
    return cell % 8, cell // 8


def ap_of_two_bits(cell):
    return divmod(cell, 2**30)


def ap_of_four_bits(cell):
    return divmod(cell, 2**28)


def ap_without_its_top_bit(cell):
    ap, exponent = ap_and_exponent(cell)
    return ap % 4, exponent


def ap_in_its_place(cell):
    """The AP is not moved down."""
    ap, exponent = ap_and_exponent(cell)
    return cell - exponent, exponent


def exponent_of_30_bits(cell):
    return ap_and_exponent(cell)[0], cell % 2**30


def exponent_of_28_bits(cell):
    return ap_and_exponent(cell)[0], cell % 2**28


def exponent_of_8_bits(cell):
    return ap_and_exponent(cell)[0], cell % 2**8


def exponent_of_6_bits(cell):
    return ap_and_exponent(cell)[0], cell % 2**6


def exponent_before_ap(value):
    number, (count, *parts) = radix_encodings(value)
    return number, [count, *(part for at in range(0, len(parts), 2) for part in (parts[at + 1], parts[at]))]


def ascending(row):
    return all(one < two for one, two in zip(row, row[1:]))


def refused_where(wrong, number=19):
    """Radix encodings that are refused too where this holds of their cells."""

    def refused(value):
        old, table = radix_encodings(value)
        return (number, [0] * len(table)) if old == 0 and wrong(properties.whole_cells(value)) else (old, table)

    return refused


def accepted_where(good):
    """Radix encodings that are accepted too where this holds of the value."""

    def accepted(value):
        number, table = radix_encodings(value)
        pairs = [ap_and_exponent(cell) for cell in properties.whole_cells(value)][: properties.MOST_SIZES]
        if number and good(number, value, pairs):
            return 0, [len(pairs), *properties.with_zeros([part for pair in pairs for part in pair], len(table) - 1)]
        return number, table

    return accepted


def aps(cells):
    return [ap_and_exponent(cell)[0] for cell in cells]


def in_range(pairs):
    return all(exponent <= 63 for _, exponent in pairs)


def cells_ascend(value):
    """The order is that of whole cells."""
    cells = properties.whole_cells(value)
    if radix_encodings(value)[0] == 19 and ascending(cells):
        return accepted_where(lambda *_: in_range(map(ap_and_exponent, cells)))(value)
    return refused_where(lambda cells: not ascending(cells))(value)


def cells_ascend_too(value):
    return refused_where(lambda cells: not ascending(cells))(value)


def aps_do_not_fall(value):
    return refused_where(lambda cells: aps(cells) != sorted(aps(cells)))(value)


def no_ap_twice(value):
    return refused_where(lambda cells: len(set(aps(cells))) < len(cells))(value)


def ap_twice_is_9(value):
    return refused_where(lambda cells: len(set(aps(cells))) < len(cells), 9)(value)


def whole_cell_at_most_63(value):
    return refused_where(lambda cells: max(cells) > 63, 12)(value)


def ap_7_is_12(value):
    """It is taken for no encoding."""
    return refused_where(lambda cells: 7 in aps(cells), 12)(value)


def fifteen_encodings(value):
    return refused_where(lambda cells: len(cells) > 15, 8)(value)


def seventeen_encodings(value):
    return accepted_where(lambda number, value, pairs: number == 8 and len(value) == 68 and in_range(pairs))(value)


def equal_exponents(value):
    def good(number, _, pairs):
        exponents = [exponent for _, exponent in pairs]
        return number == 19 and in_range(pairs) and exponents == sorted(exponents)

    return accepted_where(good)(value)


def equal_exponents_of_other_ap(value):
    """Only a pair that is given again, or falls, is 19."""
    turned = [(exponent, ap) for ap, exponent in map(ap_and_exponent, properties.whole_cells(value))]
    return accepted_where(lambda number, value, pairs: number == 19 and in_range(pairs) and ascending(turned))(value)


def exponent_64(value):
    return accepted_where(lambda number, value, pairs: number == 12 and {exponent for _, exponent in pairs} == {64})(value)


def all_ones_is_gap(value):
    """As of segment sizes."""
    kept = [cell for cell in properties.whole_cells(value) if not properties.is_gap(cell)]
    number = sizes_refusal(value, [ap_and_exponent(cell)[1] for cell in kept])
    return accepted_where(lambda *_: number == 0)(value) if number != radix_encodings(value)[0] else radix_encodings(value)


def cut_cell_ignored(value):
    return radix_encodings(value[: len(value) - len(value) % 4])


def no_encodings(value):
    return accepted_where(lambda number, value, pairs: value == b"")(value)


def most_before_length(value):
    number, table = radix_encodings(value)
    return 8 if len(value) > 64 else number, table


def cells_before_most(value):
    """12 and 19 come before 8."""
    number, table = radix_encodings(value)
    refusal = exponents_refusal([ap_and_exponent(cell)[1] for cell in properties.whole_cells(value)])
    return refusal or number if number == 8 else number, table


def all_ranges_before_order(exponents):
    return 12 if exponents and max(exponents) > 63 else exponents_refusal(exponents)


def count_beside_refusal(value):
    number, (_, *parts) = radix_encodings(value)
    return number, [len(value) // 4, *parts]


WRONG_RADIX = (
    ("ap_and_exponent", ap_at_the_bottom),
    ("ap_and_exponent", ap_of_two_bits),
    ("ap_and_exponent", ap_of_four_bits),
    ("ap_and_exponent", ap_without_its_top_bit),
    ("ap_and_exponent", ap_in_its_place),
    ("ap_and_exponent", exponent_of_30_bits),
    ("ap_and_exponent", exponent_of_28_bits),
    ("ap_and_exponent", exponent_of_8_bits),
    ("ap_and_exponent", exponent_of_6_bits),
    ("radix_encodings", exponent_before_ap),
    ("radix_encodings", cells_ascend),
    ("radix_encodings", cells_ascend_too),
    ("radix_encodings", aps_do_not_fall),
    ("radix_encodings", no_ap_twice),
    ("radix_encodings", ap_twice_is_9),
    ("radix_encodings", whole_cell_at_most_63),
    ("radix_encodings", ap_7_is_12),
    ("radix_encodings", fifteen_encodings),
    ("radix_encodings", seventeen_encodings),
    ("radix_encodings", equal_exponents),
    ("radix_encodings", equal_exponents_of_other_ap),
    ("radix_encodings", exponent_64),
    ("radix_encodings", all_ones_is_gap),
    ("radix_encodings", cut_cell_ignored),
    ("radix_encodings", no_encodings),
    ("radix_encodings", most_before_length),
    ("radix_encodings", cells_before_most),
    ("exponents_refusal", all_ranges_before_order),
    ("radix_encodings", count_beside_refusal),
)


# Document 02, A13: editions of the attributes

pa_features, pa_contents, type_zero = properties.pa_features, properties.pa_contents, properties.type_zero

# Where the values of an answer have the later bits, and where the bytes from 24 on.
LATER_BITS, LATER_BYTES = slice(11, 14), slice(15, None)


def editions(meant):
    """Other editions, or other bytes that have a meaning in them."""

    def contents(value, edition):
        with mock.patch.object(properties, "MEANT", meant):
            return pa_contents(value, edition)

    return contents


def edition_2_is_later(value, edition):
    return editions({0: 24, 1: 254, 2: 254})(value, edition)


def edition_2_is_first(value, edition):
    return editions({0: 24, 1: 254, 2: 24})(value, edition)


def every_other_edition_is_later(value, edition):
    return pa_contents(value, min(edition, 1))


def editions_in_a_byte(value, edition):
    return pa_contents(value, edition % 2**8)


def editions_in_two_bytes(value, edition):
    return pa_contents(value, edition % 2**16)


def editions_below_2_31(value, edition):
    return pa_contents(value, edition % 2**31)


def later_edition_refused(value, edition):
    return editions({0: 24})(value, edition)


def first_edition_refused(value, edition):
    return editions({1: 254})(value, edition)


def editions_from_1(value, edition):
    return editions({1: 24, 2: 254})(value, edition)


def editions_swapped(value, edition):
    return editions({0: 254, 1: 24})(value, edition)


def always_first(value, edition):
    return editions({0: 24, 1: 24})(value, edition)


def always_later(value, edition):
    return editions({0: 254, 1: 254})(value, edition)


def only_229_bytes(value, edition):
    return editions({0: 24, 1: 253})(value, edition)


def up_to_byte_65(value, edition):
    return editions({0: 24, 1: 66})(value, edition)


def byte_24_in_first_edition(value, edition):
    return editions({0: 25, 1: 254})(value, edition)


def no_bytes_before_edition(value, edition):
    return pa_contents(value, edition) if value else (11, b"")


def value_before_edition(value, edition):
    number, _ = type_zero(value)
    return (number, b"") if number else pa_contents(value, edition)


def descriptors_before_edition(value, edition):
    """11 and 12 before 15, and 15 before 10 and 9."""
    number, _ = type_zero(value)
    return (number, b"") if number in (11, 12) else pa_contents(value, edition)


def types_before_edition(value, edition):
    number, _ = type_zero(value)
    return (number, b"") if number in (9, 10) else pa_contents(value, edition)


def with_values(value, edition, **changes):
    """The right answer in the later edition, but for its later bits or bytes."""
    number, values = pa_features(value, edition)
    if number == 0 and edition == 1:
        for name, new in changes.items():
            values[{"bits": LATER_BITS, "later": LATER_BYTES}[name]] = new
    return number, values


def of_later(part):
    """The first edition with what the later one has in this part."""

    def shown_too(value, edition):
        number, values = pa_features(value, edition)
        if number == 0:
            values[part] = pa_features(value, 1)[1][part]
        return number, values

    return shown_too


def later_bits_in_first_edition(value, edition):
    return of_later(LATER_BITS)(value, edition)


def later_bytes_in_first_edition(value, edition):
    return of_later(LATER_BYTES)(value, edition)


def supplied(value, width=254):
    return type_zero(value)[1].ljust(width, b"\0")


def bit_of(place, mask, *others):
    """The bit of bytes 38, 40 and 64, but of this byte it is set where a bit of the mask is; others are masked so as well."""

    def other_bit(value, edition):
        masks = {at: mask if at in (place, *others) else 0x80 for at in (38, 40, 64)}
        return with_values(value, edition, bits=[1 if supplied(value)[at] & masks[at] else 0 for at in masks])

    return other_bit


def lowest_bit_of_byte_38(value, edition):
    return bit_of(38, 1)(value, edition)


def lowest_bit_of_byte_40(value, edition):
    return bit_of(40, 1)(value, edition)


def lowest_bit_of_byte_64(value, edition):
    return bit_of(64, 1)(value, edition)


def any_bit_of_byte_38(value, edition):
    return bit_of(38, 0xFF)(value, edition)


def any_bit_of_byte_40(value, edition):
    return bit_of(40, 0xFF)(value, edition)


def any_bit_of_byte_64(value, edition):
    return bit_of(64, 0xFF)(value, edition)


def bits_counted_from_1(value, edition):
    """Bit 1 is the one behind the top bit."""
    return bit_of(38, 0x40, 40, 64)(value, edition)


def top_bit_alone(value, edition):
    return with_values(value, edition, bits=[1 if supplied(value)[at] == 0x80 else 0 for at in (38, 40, 64)])


def later_bits_not_in_last_byte(value, edition):
    """A byte behind them is to be supplied too."""
    many = len(type_zero(value)[1])
    return with_values(value, edition, bits=[1 if supplied(value)[at] >= 0x80 and many > at + 1 else 0 for at in (38, 40, 64)])


def later_bits_of_long_descriptors(value, edition):
    """All three bytes are to be supplied."""
    many = len(type_zero(value)[1])
    return with_values(value, edition, bits=[1 if supplied(value)[at] >= 0x80 and many > 64 else 0 for at in (38, 40, 64)])


def past_the_descriptor(value, edition):
    """What stands behind the descriptor is taken for supplied."""
    contents = type_zero(value)[1]
    at = value.find(bytes([len(contents), 0]) + contents) + 2
    beyond = value[at : at + 254].ljust(254, b"\0")
    return with_values(value, edition, bits=[1 if beyond[at] >= 0x80 else 0 for at in (38, 40, 64)], later=beyond[24:])


def later_bytes_from_23(value, edition):
    return with_values(value, edition, later=supplied(value)[23:253])


def later_bytes_from_25(value, edition):
    return with_values(value, edition, later=supplied(value, 255)[25:])


def later_bytes_backwards(value, edition):
    return with_values(value, edition, later=supplied(value)[:23:-1])


def later_bytes_of_the_end(value, edition):
    """The last byte supplied stands last."""
    return with_values(value, edition, later=type_zero(value)[1][24:].rjust(230, b"\0"))


def ones_where_not_supplied(value, edition):
    return with_values(value, edition, later=type_zero(value)[1][24:].ljust(230, b"\xff"))


def told_bytes_not_raw(value, edition):
    """Bytes 38, 40 and 64 are zero among the raw ones."""
    raw = bytes(0 if at in (38, 40, 64) else byte for at, byte in enumerate(supplied(value)))
    return with_values(value, edition, later=raw[24:])


def told_bits_not_raw(value, edition):
    """Only their top bits are."""
    raw = bytes(byte % 128 if at in (38, 40, 64) else byte for at, byte in enumerate(supplied(value)))
    return with_values(value, edition, later=raw[24:])


def bits_at(*places):
    """The bits of these bytes in place of 38, 40 and 64."""
    return "PA_BITS", (6, 16, 18, 20, 22, *places)


WRONG_ATTRIBUTES = (
    ("pa_contents", edition_2_is_later),
    ("pa_contents", edition_2_is_first),
    ("pa_contents", every_other_edition_is_later),
    ("pa_contents", editions_in_a_byte),
    ("pa_contents", editions_in_two_bytes),
    ("pa_contents", editions_below_2_31),
    ("pa_contents", later_edition_refused),
    ("pa_contents", first_edition_refused),
    ("pa_contents", editions_from_1),
    ("pa_contents", editions_swapped),
    ("pa_contents", always_first),
    ("pa_contents", always_later),
    ("pa_contents", only_229_bytes),
    ("pa_contents", up_to_byte_65),
    ("pa_contents", byte_24_in_first_edition),
    ("pa_contents", no_bytes_before_edition),
    ("pa_contents", value_before_edition),
    ("pa_contents", descriptors_before_edition),
    ("pa_contents", types_before_edition),
    ("pa_features", later_bits_in_first_edition),
    ("pa_features", later_bytes_in_first_edition),
    ("pa_features", lowest_bit_of_byte_38),
    ("pa_features", lowest_bit_of_byte_40),
    ("pa_features", lowest_bit_of_byte_64),
    ("pa_features", any_bit_of_byte_38),
    ("pa_features", any_bit_of_byte_40),
    ("pa_features", any_bit_of_byte_64),
    ("pa_features", bits_counted_from_1),
    ("pa_features", top_bit_alone),
    ("pa_features", later_bits_not_in_last_byte),
    ("pa_features", later_bits_of_long_descriptors),
    ("pa_features", past_the_descriptor),
    ("pa_features", later_bytes_from_23),
    ("pa_features", later_bytes_from_25),
    ("pa_features", later_bytes_backwards),
    ("pa_features", later_bytes_of_the_end),
    ("pa_features", ones_where_not_supplied),
    ("pa_features", told_bytes_not_raw),
    ("pa_features", told_bits_not_raw),
    bits_at(37, 40, 64),
    bits_at(39, 40, 64),
    bits_at(38, 39, 64),
    bits_at(38, 41, 64),
    bits_at(38, 40, 63),
    bits_at(38, 40, 65),
    bits_at(40, 38, 64),
    bits_at(38, 64, 40),
    # Counted behind the two bytes of length and type.
    bits_at(36, 38, 62),
)


# Document 02, A13: names

property_name, lookup = tree.property_name, tree.lookup


def names_of(pattern):
    """Properties whose names are of this pattern."""

    def name_of(token, strings):
        name = tree.string(strings, token.name_at)
        return name if name is not None and re.fullmatch(pattern, name) else None

    return name_of


def property_names_to_64(token, strings):
    return names_of(rb"[0-9A-Za-z,._+?#-]{1,64}")(token, strings)


def property_names_to_62(token, strings):
    return names_of(rb"[0-9A-Za-z,._+?#-]{1,62}")(token, strings)


def property_names_to_32(token, strings):
    return names_of(rb"[0-9A-Za-z,._+?#-]{1,32}")(token, strings)


def property_names_to_31(token, strings):
    """Document 01's rule."""
    return names_of(rb"[0-9A-Za-z,._+?#-]{1,31}")(token, strings)


def property_names_of_any_length(token, strings):
    return names_of(rb"[0-9A-Za-z,._+?#-]+")(token, strings)


def property_names_as_of_nodes(token, strings):
    """The same length, and the same characters."""
    return names_of(tree.NODE_NAME)(token, strings)


def property_names_compared_to_31(token, strings):
    """By their first 31 characters."""
    name = property_name(token, strings)
    return name and name[:31]


def property_names_cut_to_63(token, strings):
    """A longer one is taken for its first 63 characters."""
    name = tree.string(strings, token.name_at)
    return name[:63] if name and names_of(rb"[0-9A-Za-z,._+?#-]+")(token, strings) else None


def sought_to_31(cpu_block, parent_block, strings, name):
    """A longer name is never found."""
    return lookup(cpu_block, parent_block, strings, name if len(name) <= 31 else b"")


def sought_to_62(cpu_block, parent_block, strings, name):
    return lookup(cpu_block, parent_block, strings, name if len(name) <= 62 else b"")


def sought_cut_to_31(cpu_block, parent_block, strings, name):
    return lookup(cpu_block, parent_block, strings, name[:31])


def sought_cut_to_63(cpu_block, parent_block, strings, name):
    return lookup(cpu_block, parent_block, strings, name[:63])


# In the walk, in the reader and in the lookup, by kind.
WRONG_NAMES = (
    ("trl", "property_name", property_names_to_64),
    ("trl", "property_name", property_names_to_62),
    ("trl", "property_name", property_names_to_32),
    ("trl", "property_name", property_names_to_31),
    ("trl", "property_name", property_names_of_any_length),
    ("trl", "property_name", property_names_as_of_nodes),
    ("tl", "property_name", property_names_compared_to_31),
    ("trl", "property_name", property_names_cut_to_63),
    ("l", "lookup", sought_to_31),
    ("l", "lookup", sought_to_62),
    ("l", "lookup", sought_cut_to_31),
    ("l", "lookup", sought_cut_to_63),
    ("tr", "NODE_NAME", re.compile(tree.NODE_NAME.pattern.replace(b"63", b"64"), re.DOTALL)),
    ("tr", "NODE_NAME", re.compile(tree.NODE_NAME.pattern.replace(b"63", b"62"), re.DOTALL)),
    ("tr", "NODE_NAME", re.compile(tree.NODE_NAME.pattern.replace(b"63", b"31"), re.DOTALL)),
)


# The right one of string lists; its `strings_of` stands above.
place = strings.place


def first_place(data, is_it):
    """The place of the first string of a list of which this holds."""
    places = [at for at, string in enumerate(strings_of(data)) if is_it(string)]
    return (0, places[0]) if places else (10, 0)


def prefix_is_string(data, text):
    return first_place(data, lambda string: string.startswith(text))


def string_is_prefix(data, text):
    return first_place(data, text.startswith)


def suffix_is_string(data, text):
    return first_place(data, lambda string: string.endswith(text))


def string_is_suffix(data, text):
    return first_place(data, text.endswith)


def part_is_string(data, text):
    return first_place(data, lambda string: text in string)


def length_is_enough(data, text):
    return first_place(data, lambda string: len(string) == len(text))


def case_ignored(data, text):
    return first_place(data, lambda string: string.lower() == text.lower())


def top_bit_ignored(data, text):
    return first_place(data, lambda string: [byte % 128 for byte in string] == [byte % 128 for byte in text])


def empty_text_stands_nowhere(data, text):
    return first_place(data, lambda string: string == text != b"")


def counted_from_1(data, text):
    number, at = place(data, text)
    return number, at if number else at + 1


def counted_from_the_end(data, text):
    number, at = place(data, text)
    return number, at if number else len(strings_of(data)) - 1 - at


def byte_offset(data, text):
    number, at = place(data, text)
    return number, sum(len(string) + 1 for string in strings_of(data)[:at])


def last_place(data, text):
    places = [at for at, string in enumerate(strings_of(data)) if string == text]
    return (0, places[-1]) if places else (10, 0)


def in_a_byte(data, text):
    number, at = place(data, text)
    return number, at % 2**8


def in_two_bytes(data, text):
    number, at = place(data, text)
    return number, at % 2**16


def first_place_only(data, text):
    """Yes or no to one string."""
    return (0, 0) if strings_of(data)[:1] == [text] else (10, 0)


def only_string(data, text):
    return (0, 0) if strings_of(data) == [text] else (10, 0)


def length_beside_10(data, text):
    number, at = place(data, text)
    return number, len(strings_of(data)) if number else at


def unended_list_is_11(data, text):
    number, at = place(data, text)
    return 11 if data and not data.endswith(b"\0") else number, at


def no_bytes_is_11(data, text):
    number, at = place(data, text)
    return number if data else 11, at


def text_up_to_zero_byte(data, text):
    """The text ends at its first zero byte, if it has one."""
    return place(data, text.split(b"\0")[0])


def last_zero_byte_of_text_dropped(data, text):
    return place(data, text[:-1] if text.endswith(b"\0") else text)


def bytes_between_zero_bytes(data, text):
    """The text's bytes stand between two zero bytes, be there one among them or not."""
    at = (b"\0" + data).find(b"\0" + text + b"\0") if data.endswith(b"\0") else -1
    return (0, data[:at].count(b"\0")) if at >= 0 else (10, 0)


def unended_string_stands(data):
    return data.split(b"\0") if data and not data.endswith(b"\0") else strings_of(data)


def strings_before_unended_stand(data):
    return data.split(b"\0")[:-1]


def unended_list_of_one_stands(data):
    return strings_of(data) or ([data] if data and b"\0" not in data else [])


def no_bytes_is_empty_string(data):
    return strings_of(data) or ([] if data else [b""])


def empty_strings_dropped(data):
    return [string for string in strings_of(data) if string]


def ends_at_empty_string(data):
    """An empty string ends the list."""
    found = strings_of(data)
    return found[: found.index(b"")] if b"" in found else found


def empty_string_behind_the_last(data):
    """What is behind the last zero byte is one more string."""
    found = strings_of(data)
    return [*found, b""] if found else found


def last_string_dropped(data):
    return strings_of(data)[:-1]


WRONG_STRINGS = (
    ("place", prefix_is_string),
    ("place", string_is_prefix),
    ("place", suffix_is_string),
    ("place", string_is_suffix),
    ("place", part_is_string),
    ("place", length_is_enough),
    ("place", case_ignored),
    ("place", top_bit_ignored),
    ("place", empty_text_stands_nowhere),
    ("place", counted_from_1),
    ("place", counted_from_the_end),
    ("place", byte_offset),
    ("place", last_place),
    ("place", in_a_byte),
    ("place", in_two_bytes),
    ("place", first_place_only),
    ("place", only_string),
    ("place", length_beside_10),
    ("place", unended_list_is_11),
    ("place", no_bytes_is_11),
    ("place", text_up_to_zero_byte),
    ("place", last_zero_byte_of_text_dropped),
    ("place", bytes_between_zero_bytes),
    ("strings_of", unended_string_stands),
    ("strings_of", strings_before_unended_stand),
    ("strings_of", unended_list_of_one_stands),
    ("strings_of", no_bytes_is_empty_string),
    ("strings_of", empty_strings_dropped),
    ("strings_of", ends_at_empty_string),
    ("strings_of", empty_string_behind_the_last),
    ("strings_of", last_string_dropped),
)


TABLES = {"p": "page_sizes", "s": "segment_sizes", "x": "radix_encodings"}


def table_answer(kind, data):
    if kind == "w":
        number, values = properties.write_unit(int.from_bytes(data[:4], "big"), data[4:])
    elif kind == "a":
        number, values = properties.pa_features(data[4:], int.from_bytes(data[:4], "big"))
    else:
        number, values = getattr(properties, TABLES[kind])(data)
    return [number, *shown(kind, values)]


# By kind; of the walk, of the reader and of the lookup.
TREE_ANSWERS = {"t": trees.answer, "r": record_answer, "l": lookups.answer}


def first_changed(model, answers, vectors, name, wrong):
    """The first vector whose line a model with this function in place of the right one changes."""
    with mock.patch.object(model, name, wrong):
        for place, (kind, data, line) in enumerate(vectors, 1):
            if line != " ".join(map(str, [kind, *answers(kind, data)])):
                return "%d of kind %s" % (place, kind)
    return None


def main():
    queries = [vector for module in RESOLVER for vector in module.vectors()]
    records = [vector for module in READER for vector in module.vectors()]
    tables = list(property_vectors())
    units, sizes, radix, attributes = ([vector for vector in tables if vector[0] in kinds] for kinds in ("w", "ps", "x", "a"))
    lists = list(string_vectors())
    read = {"t": [*trees.vectors(), *damage.vectors()], "r": records}
    read["l"] = [vector for vector in lookups.vectors() if vector[0] == "l"]
    tried = [
        *[(resolver, answer, queries, *wrong) for wrong in WRONG],
        *[(reader, lambda _, data: record_answer(data), records, *wrong) for wrong in WRONG_READER],
        *[(properties, table_answer, units, *wrong) for wrong in WRONG_UNIT],
        *[(resolver, answer, [query for query in queries if query[0] == "c"], *wrong) for wrong in WRONG_CHAIN],
        *[(properties, table_answer, sizes, *wrong) for wrong in WRONG_SIZES],
        *[(properties, table_answer, radix, *wrong) for wrong in WRONG_RADIX],
        *[(properties, table_answer, attributes, *wrong) for wrong in WRONG_ATTRIBUTES],
        *[(tree, lambda kind, data: TREE_ANSWERS[kind](data), read[kind], *wrong) for kinds, *wrong in WRONG_NAMES for kind in kinds],
        *[(strings, lambda _, data: string_answer(data), lists, *wrong) for wrong in WRONG_STRINGS],
    ]
    for model, answers, vectors, name, wrong in tried:
        found = first_changed(model, answers, vectors, name, wrong)
        called = getattr(wrong, "__name__", str(wrong))
        if found is None:
            print("the wrong model %s for %s changes no vector" % (called, name), file=sys.stderr)
            return 1
        print("wrong model %s for %s: changes vector %s first" % (called, name, found))
    counted = (WRONG, WRONG_READER, WRONG_UNIT + WRONG_CHAIN, WRONG_SIZES, WRONG_RADIX, WRONG_ATTRIBUTES, WRONG_NAMES, WRONG_STRINGS)
    print(
        "%d wrong models of the resolver, %d of the reader, %d of writers, %d of sizes, %d of radix encodings, %d of attributes, "
        "%d of names and %d of string lists, each seen" % tuple(map(len, counted))
    )
    return 0


if __name__ == "__main__":
    sys.exit(main())

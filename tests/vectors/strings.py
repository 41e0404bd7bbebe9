"""Vectors for request A3 of document 02, "String lists": kind `m`.

The bytes are the length of a list (four bytes, big-endian) and the list; the rest is the text that is looked for. The line,
after the kind: refusal number; the place of the string in the list, or zero.

The lines come from the model (tests/model/strings.py), and the expected ones are written down by hand as well, or follow
from the strings that a list is put together of. Codes such as 3b name readings of document 02.
"""

import itertools

from model import strings as model
from vectors.blocks import held
from vectors.chance import Chance
from vectors.properties import cells, mutated

SEED = 20240909

SHORT = b"cpu-features"
LONG = b"ibm,powerpc-cpu-features"


def query(data, text):
    """The bytes of a vector."""
    return cells(len(data)) + data + text


def joined(strings):
    """The list of these strings."""
    return b"".join(string + b"\0" for string in strings)


def found(place, data, text):
    return "m", query(data, text), "m 0 %d" % place


def absent(data, text):
    return "m", query(data, text), "m 10 0"


def places():
    """The first place at which the string stands: an index, not a byte offset (3a)."""
    names = [SHORT, LONG, b"a", b"power9", b"b"]
    for place, name in enumerate(names):
        yield found(place, joined(names), name)
        yield found(0, joined([name]), name)
        yield found(2, joined([b"x", b"yy", name, b"z"]), name)
        # More than once: beside each other, apart, nothing else.
        yield found(place, joined(names + names), name)
        yield found(place, joined([*names, name]), name)
        yield found(1, joined([b"x", name, name]), name)
        yield found(0, joined([name] * 3), name)
        yield absent(joined(names[:place] + names[place + 1 :]), name)
    yield found(0, b"ibm,powerpc-cpu-features\0other\0", LONG)
    yield found(1, b"other\0ibm,powerpc-cpu-features\0", LONG)
    yield found(1, b"a\0b\0a\0b\0", b"b")
    yield absent(b"a\0b\0a\0b\0", b"c")


def parts():
    """Not a prefix, a suffix or another part of a string, nor a text of which a string is one."""
    for data, text in (
        (b"power9\0", b"power"),
        (b"power9\0", b"ower9"),
        (b"power9\0", b"owe"),
        (b"power9\0", b"power99"),
        (b"power9\0", b"ppower9"),
        (b"power9\0", b"power9\0"),
        (b"power9\0", b"Power9"),
        (b"power9\0", b"power8"),
        (b"power9\0", b"qower9"),
        (b"power9\0", b"power9 "),
        (b"power9\0", b"n" * 300),
        (b"aab\0", b"ab"),
        (b"aab\0", b"aa"),
        (b"ab\0c\0", b"abc"),
        (b"ab\0c\0", b"bc"),
        (b"a\0b\0", b"ab"),
        (b"a\0", b"aa"),
        (b"aa\0", b"a"),
    ):
        yield absent(data, text)
    # Behind such strings, and between them.
    yield found(2, b"pow\0power\0power9\0power99\0", b"power9")
    yield found(3, b"wer9\0ower9\0ppower9\0power9\0", b"power9")
    yield found(1, b"aab\0ab\0", b"ab")
    yield found(2, b"a\0aaa\0aa\0", b"aa")
    yield found(1, b"\xff\0\x7f\0", b"\x7f")
    # At every length of the common front, and of the common end.
    for length in range(len(LONG)):
        yield absent(joined([LONG]), LONG[:length])
        yield absent(joined([LONG[:length]]), LONG)
        yield absent(joined([LONG]), LONG[length + 1 :])
        yield absent(joined([LONG[length + 1 :]]), LONG)
        other = LONG[:length] + b"X" + LONG[length + 1 :]
        yield absent(joined([other]), LONG)
        yield found(1, joined([other, LONG, other]), LONG)


def empty():
    """A list of no bytes has no string; a zero byte is an empty string, which may stand (3b)."""
    for text in (b"", b"\0", b"a", LONG):
        yield absent(b"", text)
    yield found(0, b"\0", b"")
    yield found(0, b"\0\0", b"")
    yield found(0, b"\0\0\0", b"")
    yield absent(b"a\0", b"")
    yield absent(b"a\0b\0", b"")
    yield found(0, b"\0a\0", b"")
    yield found(1, b"\0a\0", b"a")
    yield found(1, b"a\0\0", b"")
    yield found(0, b"a\0\0", b"a")
    yield found(1, b"a\0\0b\0", b"")
    yield found(2, b"a\0\0b\0", b"b")
    yield found(3, b"\0\0\0a\0\0", b"a")
    yield absent(b"\0", b"a")
    yield absent(b"\0\0", b"a")


def zero_bytes():
    """A text with a zero byte stands nowhere, though its bytes do (3b)."""
    for data in (b"\0", b"\0\0", b"a\0", b"a\0\0", b"\0a\0", b"a\0b\0", b"\0a\0b\0", b"a\0b\0c\0", b"a\0a\0"):
        for text in (b"\0", b"\0\0", b"a\0", b"\0a", b"\0a\0", b"a\0b", b"a\0b\0", b"b\0", b"a\0a", b"a\0\0"):
            yield absent(data, text)
        yield absent(data, data)
        yield absent(data, data[:-1] + b"\0b")
    # Two strings of the list joined, and the whole list.
    names = [SHORT, LONG, b"power9"]
    for text in (SHORT + b"\0" + LONG, LONG + b"\0power9", b"\0" + SHORT, SHORT + b"\0", LONG + b"\0", b"power9\0\0"):
        yield absent(joined(names), text)
    yield absent(joined(names), b"\0".join(names))
    yield absent(joined(names), joined(names))


def without_end():
    """A list whose last string lacks its zero byte contains nothing, wherever the text would stand."""
    names = [SHORT, LONG, b"power9"]
    for text in (*names, b""):
        yield absent(b"\0".join(names), text)
        yield absent(joined(names) + b"x", text)
        yield absent(joined(names) + b"\xff", text)
        yield absent(joined([*names, b""]) + b"\1", text)
        yield absent(text + b"\0x", text)
        yield absent(b"x\0" + text + b"\0x", text)
    for text in (b"a", b"abc", LONG):
        yield absent(text, text)
        yield absent(b"\0" + text, text)
        yield absent(text + b"\0" + text, text)
        yield absent(text + b"\0\0" + text, b"")
        yield absent(b"x" * len(text), text)
    # Cut short at every byte: three strings of two characters.
    whole = b"aa\0bb\0cc\0"
    for length in range(len(whole) + 1):
        for place, text in enumerate((b"aa", b"bb", b"cc")):
            stands = length % 3 == 0 and place < length // 3
            yield found(place, whole[:length], text) if stands else absent(whole[:length], text)


def characters():
    """Every byte: as a string, as a text, as the byte behind the last zero byte."""
    every = [bytes([byte]) for byte in range(1, 256)]
    for byte in (1, 2, 9, 10, 13, 31, 32, 47, 48, 64, 65, 97, 126, 127, 128, 129, 160, 192, 254, 255):
        yield found(byte - 1, joined(every), bytes([byte]))
        yield absent(joined(every[: byte - 1] + every[byte:]), bytes([byte]))
        yield absent(b"a\0" + bytes([byte]), b"a")
        yield found(1, joined([b"a", b"a" + bytes([byte])]), b"a" + bytes([byte]))
    # Alike but for the top bit, or for the case.
    yield absent(b"\x81\0", b"\1")
    yield absent(b"\1\0", b"\x81")
    yield absent(b"\x80\0", b"")
    yield found(1, b"\xe1\0a\0", b"a")
    yield found(1, b"A\0a\0", b"a")


def long_lists():
    """Places past what a byte or two bytes hold, and strings of any length."""
    names = [b"s%d" % at for at in range(300)]
    for place in (0, 1, 127, 128, 254, 255, 256, 257, 298, 299):
        yield found(place, joined(names), b"s%d" % place)
    yield absent(joined(names), b"s300")
    yield absent(joined(names), b"s")
    yield absent(joined(names)[:-1], b"s0")
    yield absent(joined(names) + b"s", b"s0")
    yield found(299, joined(names * 2), b"s299")
    for many in (255, 256, 1000):
        yield found(many, bytes(many) + b"a\0", b"a")
        yield found(many, b"a\0" * many + b"\0", b"")
    yield found(65536, bytes(65536) + b"a\0", b"a")
    for length in (62, 63, 64, 255, 256, 257, 3000):
        long = b"n" * length
        yield found(1, joined([long[1:], long, long + b"n"]), long)
        yield absent(joined([long[1:], long[:-1] + b"m", b"m" + long[1:], long + b"n"]), long)
        yield absent(joined([b"a", long])[:-1], long)


def every_list(most):
    """(list, strings) of all bytes 0, `a` and `b` of at most this length; no strings where the list ends without a zero byte.

    The lists that have strings are put together of them.
    """
    words = [b"".join(letters) for length in range(most) for letters in itertools.product((b"a", b"b"), repeat=length)]
    with_strings = {b"": []}
    for _ in range(most):
        for data, strings in list(with_strings.items()):
            for word in words:
                if len(data) + len(word) < most:
                    with_strings[data + word + b"\0"] = [*strings, word]
    for length in range(most + 1):
        for letters in itertools.product((b"\0", b"a", b"b"), repeat=length):
            data = b"".join(letters)
            yield data, with_strings.get(data, [])


def every_text(most):
    """All texts of 0, `a` and `b` of at most this length."""
    for length in range(most + 1):
        yield from map(b"".join, itertools.product((b"\0", b"a", b"b"), repeat=length))


def all_short():
    """Every list of at most five bytes against every text of at most two."""
    for data, strings in every_list(5):
        for text in every_text(2):
            yield found(strings.index(text), data, text) if text in strings else absent(data, text)


WORDS = (b"", b"a", b"b", b"ab", b"aab", b"power9", b"power8", SHORT, LONG, LONG[:-1], b"\x80", b"n" * 40)


def chance_query(chance):
    """(list, text): a list of few distinct strings, damaged at times, and a text that is mostly one of them or close to one."""
    some = chance.shuffled(WORDS)[: chance.between(1, 6)]
    strings = [chance.choice(some) for _ in range(chance.choice((0, 1, 2, 3, 5, 8, 20, 60)))]
    data = joined(strings)
    text = chance.choice((*some, *strings, chance.choice(WORDS)))
    change = chance.below(12)
    if change == 0:
        data = mutated(chance, data)
    elif change == 1:
        data += chance.choice((*WORDS[1:], chance.bytes(1)))
    elif change == 2:
        data = data[: chance.below(len(data) + 1)]
    change = chance.below(12)
    if change == 0:
        text = mutated(chance, text)
    elif change == 1:
        text += b"\0" + chance.choice((b"", *some))
    elif change == 2:
        at = chance.below(len(data) + 1)
        text = data[at : chance.between(at, len(data))]
    return data, text


def by_chance(chance, many):
    for _ in range(many):
        yield "m", query(*chance_query(chance)), None


def cases():
    yield from places()
    yield from parts()
    yield from empty()
    yield from zero_bytes()
    yield from without_end()
    yield from characters()
    yield from long_lists()
    yield from all_short()
    yield from by_chance(Chance(SEED), 200)


def list_and_text(data):
    """The list and the text of a vector."""
    length = int.from_bytes(data[:4], "big")
    return data[4 : 4 + length], data[4 + length :]


def answer(data):
    """Refusal number and place."""
    return model.place(*list_and_text(data))


def vectors():
    return held(cases(), answer)

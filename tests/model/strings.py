"""String lists: request A3 of document 02, restated in Python.

A list is bytes that are read as strings, each ended by a zero byte. Codes such as 3b name readings of document 02.

Standard library only, Python 3.9 or later.
"""

from model.refusals import ACCEPTED, NOT_THERE


def strings_of(data):
    """The strings of a list: "a list whose last string lacks its zero byte contains nothing", nor does one of no bytes (3b)."""
    *strings, behind = data.split(b"\0")
    return [] if behind else strings


def place(data, text):
    """(number, place): "at which place of the list the string first stands, counted from 0", or that it stands nowhere (3a)."""
    strings = strings_of(data)
    return (ACCEPTED, strings.index(text)) if text in strings else (NOT_THERE, 0)

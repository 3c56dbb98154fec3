"""A command written anew so that protobuf's own strictness is out of the way: what is left has to come out the same."""

from model import NUMBER, START, STOP, WIRE, Refused, shortest
from protobuf_rules import READ


def is_text(name):
    """Whether it is UTF-8."""
    try:
        name.decode("utf-8")
    except UnicodeDecodeError:
        return False
    return True


def tidied(model, data, type_, blank):
    """A command that the model reads: only the fields that are read, in their order, with shortest tags and lengths; if
    wanted without the names that are not UTF-8."""

    def message(start, stop, numbers, below):
        out = b""
        while start < stop:
            field = model.field(data, start, stop)
            start = field[STOP]
            if field[NUMBER] in numbers:
                out += shortest(field[NUMBER] * 8 + field[WIRE]) + content(field, below.get(field[NUMBER]))
        return out

    def content(field, read):
        inner = data[field[START] : field[STOP]]
        if field[WIRE] != 2:
            return inner
        if read is not None:
            inner = message(field[START], field[STOP], read[0], read[1])
        elif blank and not is_text(inner):
            inner = b""
        return shortest(len(inner)) + inner

    return message(0, len(data), {1, type_}, READ[1])


def shortened(model, data):
    """A command that the model refuses: the same with shortest tags and lengths and nothing inside the fields that are not
    looked into; in each message from the first place on that is not well formed as it was."""
    types = types_in(model, data)

    def message(at, stop, below):
        out = b""
        while at < stop:
            try:
                field = model.field(data, at, stop)
            except Refused:
                return out + ill_formed(at, stop)
            number, wire, _, start, at = field
            out += shortest(number * 8 + wire)
            if wire == 2:
                inner = content(field, below)
                out += shortest(len(inner)) + inner
            else:
                out += data[start:at]
        return out

    def content(field, below):
        number, _, _, start, stop = field
        if number in below and (below is not READ[1] or number in types):
            return message(start, stop, below[number][1])
        return b""

    def ill_formed(at, stop):
        """What is no field, and what follows it, with the shortest tag if there is a tag."""
        try:
            tag, start = model.varint(data, at, stop)
        except Refused:
            return data[at:stop]
        return shortest(tag) + data[start:stop]

    return message(0, len(data), READ[1])


def types_in(model, data):
    """The types that a command names before the first place that is not well formed."""
    types, at = set(), 0
    while at < len(data):
        try:
            number, wire, value, _, at = model.field(data, at, len(data))
        except Refused:
            break
        if number == 1 and wire == 0:
            types |= {value, value & 2**32 - 1}
    return types

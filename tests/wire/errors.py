"""Deliberate errors: rules of the model, and of protobuf, each with one step done wrong. The comparison has to tell every
one of them, which shows that it can fail."""

import model as right
import protobuf_rules
from model import ACK, NUMBER, STOP, VALUE, WIRE, Model, Reading, Refused

COUNT, SEED = 30000, 5


# ---- the model

class TenthByte(Model):
    """a tenth byte of 2 is taken"""

    def fits_64_bits(self, value):
        return True


class LongVarint(Model):
    """a varint may not be longer than needed"""

    def varint(self, data, at, end):
        value, after = super().varint(data, at, end)
        if after - at > 1 and data[after - 1] == 0:
            raise Refused("long")
        return value, after


class BigNumber(Model):
    """field numbers from 2^29 on are taken"""

    def field(self, data, at, end):
        tag, start = self.varint(data, at, end)
        if tag >> 32 and tag & 7 == 0:
            value, stop = self.varint(data, start, end)
            return tag >> 3, 0, value, start, stop
        return super().field(data, at, end)


class GroupSkipped(Model):
    """a group is skipped"""

    def no_field(self, data, at, end, number, wire):
        while wire == 3:
            tag, after = self.varint(data, at, end)
            if tag == number * 8 + 4:
                return after
            at = self.field(data, at, end)[STOP]
        raise Refused("group")


class FieldTwice(Model):
    """a field that stands twice is taken, with its last value"""

    def single(self, found, number):
        return found[number][-1] if number in found else None


class OtherWireType(Model):
    """a field of another wire type is skipped"""

    def number(self, found, number, fits):
        found[number] = [field for field in found.get(number, ()) if field[WIRE] == 0]
        if not found[number]:
            del found[number]
        return super().number(found, number, fits)


class Packed(Model):
    """a packed ack set is taken as no words"""

    def words_of(self, found, number, most):
        found[number] = [field for field in found.get(number, ()) if field[WIRE] != 2]
        return super().words_of(found, number, most)


class AbsentRequired(Model):
    """an absent number is 0"""

    def required(self, found, number, fits=right.any_width):
        return self.number(found, number, fits) or 0


class AnyWidth(Model):
    """no number is too wide for its field"""

    def number(self, found, number, fits):
        return super().number(found, number, right.any_width)


class NoNegativeEnum(Model):
    """a negative enum is refused"""

    def number(self, found, number, fits):
        value = super().number(found, number, fits)
        if fits is right.int32 and value is not None and value >= 2**31:
            raise Refused("width")
        return value


class NegativeBatch(Model):
    """a negative batch size is taken"""

    def message(self, data, found):
        try:
            return super().message(data, found)
        except Refused as refused:
            if refused.reason == "negative":
                return [0] * right.RECORD_WORDS
            raise


class ManyIds(Model):
    """65 ids are taken"""

    most_ids = 65


class ManyWords(Model):
    """17 words of an id are taken"""

    most_words = 17


class ManyMessageWords(Model):
    """5 words of a Message are taken"""

    most_message_words = 5


class ShortList(Model):
    """a list of 1,215 words is taken"""

    list_words = 1215


class SeventeenFirst(Model):
    """17 comes before 16: a type that is not taken is told though what follows is not well formed"""

    def base(self, data, takes):
        first = self.field(data, 0, len(data))
        if first[NUMBER] == 1 and first[WIRE] == 0 and first[VALUE] not in takes and right.int32(first[VALUE]):
            return first[VALUE], None
        return super().base(data, takes)


class NoMessage(Model):
    """a type that is taken without its message is 17"""

    def read_command(self, data, list_words=right.LIST_WORDS):
        reading = super().read_command(data, list_words)
        return Reading(17) if reading.reason == "no-message" else reading


class OtherMessages(Model):
    """other types' messages are looked into"""

    def base(self, data, takes):
        type_, found = super().base(data, takes)
        for field in self.fields(data, 0, len(data)).get(ACK, ()):
            if field[WIRE] == 2:
                self.fields(data, field[right.START], field[STOP])
        return type_, found


class WordsFirst(Model):
    """the words of an id stand before their count"""

    def group(self, data, start, stop):
        group = super().group(data, start, stop)
        return group[:2] + group[3:] + group[2:3]


class ListShifted(Model):
    """the list begins a word later"""

    def laid(self, groups):
        return [0] + groups[:-1] if groups else groups


class EveryKindShared(Model):
    """every sub type but Exclusive is shared"""

    def kind(self, sub_type):
        return 0 if sub_type == 0 else 1


class SeekToId(Model):
    """a Seek without an id is to the id (0, 0)"""

    def seek(self, data, found):
        words, groups = super().seek(data, found)
        return words[:2] + [1] + words[3:], groups


class BatchLeftOut(Model):
    """a batch size of 0 is not written"""

    def batch_bytes(self, batch):
        return super().batch_bytes(batch) if batch else b""


# ---- protobuf's rules

class KeepsFirst(protobuf_rules.Parse):
    """protobuf keeps the first of a singular field"""

    def put(self, field, number, value, tree):
        if field.repeated or number not in tree:
            super().put(field, number, value, tree)


class ReplacesMessage(protobuf_rules.Parse):
    """protobuf takes the last of a message that comes twice and does not merge"""

    def value(self, field, number, at, end, tree, read, depth):
        if field.message is not None and not field.repeated:
            tree.pop(number, None)
        return super().value(field, number, at, end, tree, read, depth)


class NoUnknownEnum(protobuf_rules.Parse):
    """protobuf takes every number for an enum"""

    def as_number(self, field, value, of_it):
        number = super().as_number(field, value, of_it)
        return protobuf_rules.signed(value, 32) if number is None else number


class PackedUnknown(protobuf_rules.Parse):
    """protobuf takes a packed ack set for an unknown field"""

    def packed(self, number, at, end, tree, of_it):
        return self.length(at, end)[1]


class LongTagsTaken(protobuf_rules.Parse):
    """protobuf takes tags of any length"""

    def runs_on(self, at, end, rule):
        if rule != "long-tag":
            super().runs_on(at, end, rule)

    def tag(self, at, end):
        tag, after, _ = super().tag(at, end)
        return tag, after, True


class GroupsRefused(protobuf_rules.Parse):
    """protobuf refuses groups"""

    def skip_group(self, number, at, end):
        raise protobuf_rules.Stops


def kinds_of(base):
    """The errors above in one of the two."""
    return [one for one in globals().values() if isinstance(one, type) and issubclass(one, base) and one is not base]


def is_told(make, compare, differs):
    """After how many commands and records an error is told, or None."""
    comparison = make()
    try:
        compare(comparison, COUNT, SEED)
    except differs:
        return comparison.count + sum(comparison.records.values())
    return None


def all_told(comparison, library, compare, differs):
    """Every wrong rule is told; ends with 1 if one is not."""
    missed, told = [], 0
    errors = [(one, lambda one=one: comparison(library, model=one())) for one in kinds_of(Model)]
    errors += [(one, lambda one=one: comparison(library, parse=one)) for one in kinds_of(protobuf_rules.Parse)]
    for one, make in errors:
        if is_told(make, compare, differs) is None:
            missed.append(one.__doc__)
        else:
            told += 1
    for what in missed:
        print(f"wire: FAILED: not told: {what}")
    print(f"wire: {told} of {len(errors)} deliberate errors are told, in the rules and in what protobuf does")
    return 1 if missed else 0

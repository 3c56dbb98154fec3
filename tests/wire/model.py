"""Commands as bytes, read plainly from the rules in docs/DECISIONS.md: bytes to an answer, words and list, a record to
bytes. It is written to be compared with the library and shares nothing with it. A refusal also says why, in a word that
the library does not give and that compare.py holds against what protobuf does.

A field is a tuple: number, wire type, the number of a varint, where its bytes start and where they stop. The steps are
methods, so that errors.py can put a wrong one in the place of each.
"""

SUBSCRIBE, MESSAGE, ACK, FLOW, CLOSE, REDELIVER, SEEK = 4, 9, 10, 11, 16, 20, 28
LIST_WORDS, COMMAND_WORDS, RECORD_WORDS, BUFFER_BYTES = 1216, 8, 13, 256
NUMBER, WIRE, VALUE, START, STOP = range(5)

# Every word that a refusal by 16 gives as its reason.
REASONS = {
    "cut": "a varint, a field or a message runs past the end",
    "long": "a varint of more than ten bytes",
    "wide": "a varint of more than 64 bits",
    "number": "a field number 0, or from 2^29 on",
    "group": "a group's start or end",
    "no-wire-type": "wire type 6 or 7",
    "wire-type": "a field read has another wire type",
    "packed": "an ack set in the packed form",
    "twice": "a singular field read stands twice",
    "absent": "a required field is absent",
    "width": "a number too wide for its field",
    "negative": "a batch size below 0",
    "ids": "more than 64 ids",
    "words": "more than 16 words of an id, or 4 of a Message",
    "no-message": "a type that is taken without its message",
    "short-list": "a list of fewer than 1,216 words",
    "short-buffer": "a buffer of fewer than 256 bytes",
    "count": "a record with more than 4 words",
    "batch": "a record with a batch size over 256",
    "redelivery": "a record with a redelivery count of 2^32 or more",
}


class Refused(Exception):
    """A refusal by 16, with its reason."""

    def __init__(self, reason):
        super().__init__(reason)
        self.reason = reason


def any_width(value):
    """uint64 and int64."""
    return True


def uint32(value):
    """Below 2^32."""
    return value < 2**32


def int32(value):
    """An enum or int32: below 2^31, or negative in ten bytes."""
    return value < 2**31 or value >= 2**64 - 2**31


def shortest(value):
    """The shortest varint of a number."""
    out = bytearray()
    while value > 127:
        out.append(value & 127 | 128)
        value >>= 7
    out.append(value)
    return bytes(out)


class Reading:
    """What a reader found: the answer, the reason if it is 16, the type if it got so far, words and list if it read."""

    __slots__ = ("answer", "reason", "type", "words", "list")

    def __init__(self, answer, reason=None, type_=None, words=None, list_=()):
        self.answer, self.reason, self.type, self.words, self.list = answer, reason, type_, words, list_


class Model:
    """The rules. Numbers in the remarks are those of the rules."""

    most_ids = 64
    most_words = 16
    most_message_words = 4
    list_words = LIST_WORDS

    # ---- 1, 2: varints and fields

    def varint(self, data, at, end):
        """1: the number and where the next byte stands."""
        value = shift = 0
        while True:
            if at >= end:
                raise Refused("cut")
            byte = data[at]
            at += 1
            value |= (byte & 127) << shift
            if byte < 128:
                break
            shift += 7
            if shift == 70:
                raise Refused("long")
        if not self.fits_64_bits(value):
            raise Refused("wide")
        return value & 2**64 - 1, at

    def fits_64_bits(self, value):
        """A tenth byte is 0 or 1."""
        return value < 2**64

    def field(self, data, at, end):
        """2: the field whose tag stands at a place."""
        tag, start = self.varint(data, at, end)
        number, wire = tag >> 3, tag & 7
        if number == 0 or number >= 2**29:
            raise Refused("number")
        value = 0
        if wire == 0:
            value, stop = self.varint(data, start, end)
        elif wire == 1:
            stop = start + 8
        elif wire == 2:
            size, start = self.varint(data, start, end)
            stop = start + size
        elif wire == 5:
            stop = start + 4
        else:
            stop = self.no_field(data, start, end, number, wire)
        if stop > end:
            raise Refused("cut")
        return number, wire, value, start, stop

    def fields(self, data, at, end):
        """All fields of a message, by their number."""
        found = {}
        while at < end:
            field = self.field(data, at, end)
            found.setdefault(field[NUMBER], []).append(field)
            at = field[STOP]
        return found

    def no_field(self, data, at, end, number, wire):
        """Groups, and wire types that there are not."""
        raise Refused("group" if wire in (3, 4) else "no-wire-type")

    # ---- 5, 6: a field read

    def single(self, found, number):
        """The field of a number, or None; it may not stand twice."""
        those = found.get(number)
        if those is None:
            return None
        if len(those) > 1:
            raise Refused("twice")
        return those[0]

    def number(self, found, number, fits):
        """The number of a singular field, or None."""
        field = self.single(found, number)
        if field is None:
            return None
        if field[WIRE] != 0:
            raise Refused("wire-type")
        if not fits(field[VALUE]):
            raise Refused("width")
        return field[VALUE]

    def required(self, found, number, fits=any_width):
        """The number of a singular field that has to be there."""
        value = self.number(found, number, fits)
        if value is None:
            raise Refused("absent")
        return value

    def part(self, found, number, reason="absent"):
        """Where a singular length-delimited field starts and stops; it has to be there."""
        field = self.single(found, number)
        if field is None:
            raise Refused(reason)
        if field[WIRE] != 2:
            raise Refused("wire-type")
        return field[START], field[STOP]

    def words_of(self, found, number, most):
        """The words of an ack set."""
        those = found.get(number, ())
        for field in those:
            if field[WIRE] != 0:
                raise Refused("packed" if field[WIRE] == 2 else "wire-type")
        if len(those) > most:
            raise Refused("words")
        return [field[VALUE] for field in those]

    # ---- 4, 10: ids

    def id(self, found):
        """Ledger and entry."""
        return [self.required(found, 1), self.required(found, 2)]

    def group(self, data, start, stop):
        """An id of Ack or Redeliver: ledger, entry, how many words, the words."""
        found = self.fields(data, start, stop)
        words = self.words_of(found, 5, self.most_words)
        return self.id(found) + [len(words)] + words

    def groups(self, data, those):
        """The ids of Ack or Redeliver, one after the other."""
        for field in those:
            if field[WIRE] != 2:
                raise Refused("wire-type")
        if len(those) > self.most_ids:
            raise Refused("ids")
        return [word for field in those for word in self.group(data, field[START], field[STOP])]

    # ---- 4, 7, 12: the six commands, each as its words after the consumer and the request, and its list

    def subscribe(self, data, found):
        """Names by start and size."""
        topic, topic_stop = self.part(found, 1)
        name, name_stop = self.part(found, 2)
        kind = self.kind(self.required(found, 3, int32))
        consumer, request = self.required(found, 4), self.required(found, 5)
        return [consumer, request, kind, topic, topic_stop - topic, name, name_stop - name], []

    def kind(self, sub_type):
        """Any sub type but Shared is plain."""
        return 1 if sub_type == 1 else 0

    def flow(self, data, found):
        """Consumer and permits."""
        return [self.required(found, 1), 0, self.required(found, 2, uint32)], []

    def ack(self, data, found):
        """The ack type's value is ignored."""
        consumer = self.required(found, 1)
        self.required(found, 2, int32)
        words = self.groups(data, found.get(3, ()))
        return [consumer, 0, len(words)], words

    def redeliver(self, data, found):
        """As an Ack, without a type."""
        consumer = self.required(found, 1)
        words = self.groups(data, found.get(2, ()))
        return [consumer, 0, len(words)], words

    def seek(self, data, found):
        """Without an id it is to the start."""
        consumer, request = self.required(found, 1), self.required(found, 2)
        if 3 not in found:
            return [consumer, request, 0, 0, 0], []
        return [consumer, request, 1] + self.id(self.fields(data, *self.part(found, 3))), []

    def close(self, data, found):
        """Consumer and request."""
        return [self.required(found, 1), self.required(found, 2)], []

    # ---- 8, 9: BaseCommand

    commands = {SUBSCRIBE: "subscribe", ACK: "ack", FLOW: "flow", CLOSE: "close", REDELIVER: "redeliver", SEEK: "seek"}

    def base(self, data, takes):
        """The type of a BaseCommand and, if it is taken, the fields of its message."""
        found = self.fields(data, 0, len(data))
        type_ = self.required(found, 1, int32)
        if type_ not in takes:
            return type_, None
        return type_, self.fields(data, *self.part(found, type_, "no-message"))

    def read_command(self, data, list_words=LIST_WORDS):
        """10: the reader of commands with a list of some words."""
        try:
            if list_words < self.list_words:
                raise Refused("short-list")
            type_, found = self.base(data, self.commands)
            if found is None:
                return Reading(17, None, type_)
            words, groups = getattr(self, self.commands[type_])(data, found)
        except Refused as refused:
            return Reading(16, refused.reason)
        return Reading(type_ * 256, None, type_, words + [0] * (COMMAND_WORDS - len(words)), self.laid(groups))

    def laid(self, groups):
        """The words of the list, from its first on."""
        return groups

    def read_message(self, data):
        """The reader of Message: a record of 13 words, of which handle, cost and permits are 0."""
        try:
            type_, found = self.base(data, (MESSAGE,))
            if found is None:
                return Reading(17, None, type_)
            words = self.message(data, found)
        except Refused as refused:
            return Reading(16, refused.reason)
        return Reading(0, None, type_, words)

    def message(self, data, found):
        """A batch size or redelivery count that is absent is 0."""
        consumer = self.required(found, 1)
        of_id = self.fields(data, *self.part(found, 2))
        redelivery = self.number(found, 3, uint32) or 0
        words = self.words_of(found, 4, self.most_message_words)
        batch = self.number(of_id, 6, int32) or 0
        if batch >= 2**63:
            raise Refused("negative")
        padded = words + [0] * (4 - len(words))
        return [consumer] + self.id(of_id) + [0, batch, len(words)] + padded + [redelivery, 0, 0]

    # ---- 11: the writer

    def write_message(self, record, buffer_bytes=BUFFER_BYTES):
        """A record of 13 words to the bytes of a Message: the answer, the bytes, the reason."""
        for refuses, reason in (
            (buffer_bytes < BUFFER_BYTES, "short-buffer"),
            (record[5] > 4, "count"),
            (record[4] > 256, "batch"),
            (record[10] >= 2**32, "redelivery"),
        ):
            if refuses:
                return 16, b"", reason
        message = self.message_bytes(record)
        bytes_ = b"\x08\x09\x4a" + shortest(len(message)) + message
        return len(bytes_) * 256, bytes_, None

    def message_bytes(self, record):
        """CommandMessage."""
        minus_one = shortest(2**64 - 1)
        of_id = b"\x08" + shortest(record[1]) + b"\x10" + shortest(record[2])
        of_id += b"\x18" + minus_one + b"\x20" + minus_one + self.batch_bytes(record[4])
        words = b"".join(b"\x20" + shortest(word) for word in record[6 : 6 + record[5]])
        head = b"\x08" + shortest(record[0]) + b"\x12" + shortest(len(of_id))
        return head + of_id + b"\x18" + shortest(record[10]) + words

    def batch_bytes(self, batch):
        """The batch size stands also where it is 0."""
        return b"\x30" + shortest(batch)

"""Random commands as bytes: every type, fields in any order, unknown fields of every wire type, long varints, other types'
messages, and one or two mistakes in some of them; commands as protobuf itself writes them; records for the writer.

A message is a list of fields, each a tuple of number, wire type and content: of a varint its number or its own bytes, of a
length-delimited field bytes or again a list. A field with the number None is bytes as they stand.
"""

import random

from model import ACK, CLOSE, FLOW, MESSAGE, REDELIVER, SEEK, SUBSCRIBE, shortest

TYPES = (SUBSCRIBE, ACK, FLOW, CLOSE, REDELIVER, SEEK, MESSAGE)
OTHER_TYPES = (2, 3, 5, 6, 7, 8, 12, 13, 14, 15, 17, 18, 19)
# No message of Pulsar has these numbers here; 1 << 29 is the first that no field can have.
UNKNOWN_NUMBERS = (21, 22, 27, 29, 30, 31, 63, 100, 127, 128, 2047, 2048, 16383, 2**21, 2**28, 2**29 - 1)
EDGES = tuple(sorted({p + d for b in (7, 8, 14, 16, 21, 28, 31, 32, 35, 42, 49, 56, 63) for p in (2**b,) for d in (-1, 0, 1)})) + (
    0, 1, 2, 2**64 - 2, 2**64 - 1, 2**64 - 2**31, 2**64 - 2**31 - 1, 2**64 - 2**31 + 1,
)
NAMES = (b"", b"a", b"orders", b"persistent://public/default/market-orders", "Märkte".encode(), b"\xff\xfe", b"x" * 130)
WIRE_TYPES = (0, 1, 2, 5)


class Generator:
    def __init__(self, seed, protocol=None):
        self.random = random.Random(seed)
        self.protocol = protocol
        self.pads = 0.0

    # ---- numbers and bytes

    def chance(self, share):
        """True in a share of the cases."""
        return self.random.random() < share

    def number(self):
        """A number of 64 bits: small, about a limit, or of any length."""
        pick = self.random.random()
        if pick < 0.4:
            return int(pick * 1000)
        if pick < 0.7:
            return self.random.choice(EDGES)
        return self.random.getrandbits(self.random.randint(1, 64))

    def number_32(self):
        return self.number() & 2**32 - 1

    def varint(self, value, most=10):
        """A varint, now and then longer than needed."""
        short = shortest(value)
        if self.pads and self.chance(self.pads):
            more = self.random.randint(0, most - len(short))
            if more:
                return short[:-1] + bytes([short[-1] | 128]) + b"\x80" * (more - 1) + b"\x00"
        return short

    def name(self):
        return self.random.choice(NAMES)

    # ---- messages

    def bytes_of(self, fields):
        """The bytes of a message."""
        out = bytearray()
        # The C++ parser takes tags and lengths of 5 bytes at most; both kinds of longer ones are wanted.
        most = 10 if self.pads > 0.25 else 5
        for number, wire, content in fields:
            if number is None:
                out += content
                continue
            out += self.varint(number * 8 + wire, max(most, 5))
            if wire == 0:
                out += self.varint(content) if isinstance(content, int) else content
            elif wire == 2:
                inner = self.bytes_of(content) if isinstance(content, list) else content
                out += self.varint(len(inner), most) + inner
            else:
                out += content
        return bytes(out)

    def content(self, wire):
        """What a field that is not read may hold."""
        if wire == 0:
            return self.number()
        if wire == 2:
            return self.random.randbytes(self.random.choice((0, 1, 2, 3, 7, 20, 128)))
        return self.random.randbytes(8 if wire == 1 else 4)

    def unknown(self, unread):
        """A field that is not read: of a number that Pulsar does not have, or that it has and the library skips."""
        number = self.random.choice(unread) if unread and self.chance(0.3) else self.random.choice(UNKNOWN_NUMBERS)
        wire = self.random.choice(WIRE_TYPES)
        return number, wire, self.content(wire)

    def mixed(self, fields, unread):
        """Unknown fields at any place, then any order."""
        if self.unknowns:
            for _ in range(self.random.choice((0, 1, 1, 2, 3))):
                fields.insert(self.random.randint(0, len(fields)), self.unknown(unread))
        if self.shuffles:
            self.random.shuffle(fields)
        return fields

    def words(self, number, most):
        """The words of an ack set."""
        share = self.random.random()
        count = 0 if share < 0.5 else self.random.randint(1, min(4, most)) if share < 0.97 else self.random.choice((most - 1, most))
        return [(number, 0, self.number()) for _ in range(count)]

    def id(self, words=False, batch=False):
        """An id, with an ack set or a batch size where these are read."""
        fields = [(1, 0, self.number()), (2, 0, self.number())]
        if self.chance(0.3):
            fields += [(3, 0, 2**64 - 1), (4, 0, self.random.choice((2**64 - 1, 0, 7)))]
        if words:
            fields += self.words(5, 16)
        if batch and self.chance(0.8):
            fields.append((6, 0, self.random.choice((0, 1, 3, 64, 255, 256, 257, 2**31 - 1))))
        return self.mixed(fields, (3, 4, 7) + (() if words else (5,)) + (() if batch else (6,)))

    def ids(self, number):
        """The ids of an Ack or a Redeliver."""
        share = self.random.random()
        count = self.random.randint(0, 3) if share < 0.95 else self.random.randint(4, 12) if share < 0.994 else self.random.choice((63, 64))
        return [(number, 2, self.id(words=True)) for _ in range(count)]

    def message(self, type_):
        """The message of a type."""
        consumer, request = self.number(), self.number()
        if type_ == SUBSCRIBE:
            sub_type = self.random.choice((0, 1, 1, 1, 2, 3, 4, 127, 2**31 - 1, 2**64 - 1, 2**64 - 2**31))
            fields = [(1, 2, self.name()), (2, 2, self.name()), (3, 0, sub_type), (4, 0, consumer), (5, 0, request)]
            return self.mixed(fields, tuple(range(6, 20)))
        if type_ == FLOW:
            return self.mixed([(1, 0, consumer), (2, 0, self.number_32())], (3,))
        if type_ == ACK:
            ack_type = self.random.choice((0, 0, 0, 1, 2, 2**31 - 1, 2**64 - 1))
            return self.mixed([(1, 0, consumer), (2, 0, ack_type)] + self.ids(3), (4, 5, 6, 7, 8))
        if type_ == REDELIVER:
            return self.mixed([(1, 0, consumer)] + self.ids(2), (3,))
        if type_ == SEEK:
            fields = [(1, 0, consumer), (2, 0, request)]
            if self.chance(0.7):
                fields.append((3, 2, self.id()))
            if self.chance(0.3):
                fields.append((4, 0, self.number()))
            return self.mixed(fields, (4,))
        if type_ == CLOSE:
            return self.mixed([(1, 0, consumer), (2, 0, request)], (3, 4))
        fields = [(1, 0, consumer), (2, 2, self.id(batch=True))]
        if self.chance(0.8):
            fields.append((3, 0, self.number_32()))
        return self.mixed(fields + self.words(4, 4), (5,))

    def command(self, mistakes=None):
        """A command as bytes, with so many mistakes (0, 1 or 2 if not given)."""
        share = self.random.random()
        self.shuffles, self.unknowns = share < 0.3, self.chance(0.4)
        self.pads = self.random.choice((0, 0, 0, 0.1, 0.2, 0.5))
        if mistakes is None:
            mistakes = self.random.choices((0, 1, 2), (55, 38, 7))[0]
        type_ = self.random.choice(TYPES) if self.chance(0.92) else self.random.choice(OTHER_TYPES)
        fields = [(1, 0, type_)]
        if type_ in TYPES:
            fields.append((type_, 2, self.message(type_)))
        others = tuple(t for t in TYPES if t != type_)
        if self.chance(0.15):
            other = self.random.choice(others)
            fields.append((other, 2, self.message(other)))
        fields = self.mixed(fields, others if self.chance(0.3) else ())
        for _ in range(mistakes):
            self.mistake(fields, type_)
        return self.bytes_of(fields)

    # ---- mistakes

    def messages_in(self, fields, type_):
        """BaseCommand, the message of its type and the ids in it."""
        found = [fields]
        for number, _, content in fields:
            if number == type_ and isinstance(content, list):
                found.append(content)
                found += [inner for _, _, inner in content if isinstance(inner, list)]
        return found

    def mistake(self, fields, type_):
        """Puts something into a command that the readers do not take, or take otherwise."""
        messages = self.messages_in(fields, type_)
        where = self.random.choice(messages)
        which = self.random.choice(MISTAKES)
        if which in CHANGES and where:
            place = self.random.randrange(len(where))
            CHANGES[which](self, where, place, *where[place])
        elif which == "narrow":
            self.narrow(messages, type_)
        elif which == "packed":
            where = messages[1 if type_ == MESSAGE else -1] if len(messages) > 1 else fields
            words = b"".join(shortest(self.number()) for _ in range(self.random.randint(0, 3)))
            where.insert(self.random.randint(0, len(where)), (4 if type_ == MESSAGE else 5, 2, words))
        else:
            where.insert(self.random.randint(0, len(where)), self.insertion(which, type_))

    def narrow(self, messages, type_):
        """A number about the limits of a field of 32 bits: the type, or one of the message or of its id."""
        where, number = messages[0], 1
        if len(messages) > 1 and self.chance(0.8):
            where, number = messages[1], {SUBSCRIBE: 3, FLOW: 2, ACK: 2, MESSAGE: 3}.get(type_, 1)
            if type_ == MESSAGE and len(messages) > 2 and self.chance(0.5):
                where, number = messages[2], 6
        value = self.random.choice((2**31 - 1, 2**31, 2**32 - 1, 2**32, 2**32 + type_, 2**63, 2**64 - 2**31 - 1, 2**64 - 2**31, 2**64 - 1))
        where[:] = [field for field in where if field[0] != number] + [(number, 0, value)]

    def insertion(self, which, type_):
        """Bytes that are no field, or a further type."""
        number = self.random.choice((1, 2, 3, 5, 9, 21, 192, 2000))
        if which == "group":
            return None, None, self.group(number)
        if which == "wire type":
            return None, None, shortest(number * 8 + self.random.choice((6, 7))) + self.random.randbytes(3)
        if which == "number":
            tag = self.random.choice((0, 0, 1, 2, 4, 5, 2**32, 2**32 + 8, 2**32 + 80, 2**35, 2**63, 2**64 - 8))
            return None, None, self.varint(tag, 10) + b"\x00"
        if which == "varint":
            return None, None, self.varint(number * 8 + self.random.choice((0, 2))) + self.wide()
        return 1, 0, self.random.choice((0, 1, 21, 99, 2**31 - 1, 2**31, 2**32 + 4, 2**63, 2**64 - 1, type_))

    def group(self, number):
        """A group: whole, nested, of another end, without one, or an end alone."""
        start, end = shortest(number * 8 + 3), shortest(number * 8 + 4)
        inner = self.bytes_of([self.unknown(()) for _ in range(self.random.randint(0, 2))])
        return self.random.choice((
            start + inner + end, start + inner + end, start + end, start + start + inner + end + end,
            start + shortest((number + 1) * 8 + 4), start + inner, end, start + b"\x84" + end, start + b"\x00\x01" + end,
        ))

    def wide(self):
        """A varint of ten bytes past 64 bits, or of eleven."""
        nine = bytes(self.random.choice((0x80, 0xFF, 0x83)) for _ in range(9))
        return nine + self.random.choice((b"\x02", b"\x03", b"\x7f", b"\x80\x00", b"\x81\x01", b"\xff\xff\xff\x01"))

    def many(self):
        """A command at or past a limit of ids or words."""
        self.pads = 0
        type_ = self.random.choice((ACK, REDELIVER, MESSAGE))
        if type_ == MESSAGE:
            count = self.random.choice((4, 5, 6))
            content = [(1, 0, 7), (2, 2, [(1, 0, 1), (2, 0, 2)])] + [(4, 0, self.number()) for _ in range(count)]
        else:
            ids, words = self.random.choice(((64, 0), (64, 1), (65, 0), (66, 1), (1, 16), (3, 16), (1, 17), (2, 18)))
            one = [(1, 0, self.number()), (2, 0, self.number())] + [(5, 0, self.number()) for _ in range(words)]
            head = [(1, 0, 7), (2, 0, 0)] if type_ == ACK else [(1, 0, 7)]
            content = head + [(3 if type_ == ACK else 2, 2, one)] * ids
        return self.bytes_of([(1, 0, type_), (type_, 2, content)])

    # ---- commands as protobuf writes them

    def written(self):
        """A command that protobuf itself wrote, from all fields of its messages."""
        command = self.protocol.BaseCommand()
        number = self.random.choice(TYPES)
        command.type = number
        field = command.DESCRIPTOR.fields_by_number[number]
        self.set_fields(getattr(command, field.name), 0)
        return command.SerializeToString()

    def set_fields(self, message, depth):
        """Sets the required fields of a message and some of the others."""
        for field in message.DESCRIPTOR.fields:
            if field.label == field.LABEL_REPEATED:
                values = getattr(message, field.name)
                for _ in range(self.random.choice((0, 0, 1, 2, 4))):
                    if field.message_type:
                        self.set_fields(values.add(), depth + 1)
                    else:
                        values.append(self.value(field))
            elif field.label == field.LABEL_REQUIRED or self.chance(0.3):
                if not field.message_type:
                    setattr(message, field.name, self.value(field))
                elif depth < 2 or field.label == field.LABEL_REQUIRED:
                    self.set_fields(getattr(message, field.name), depth + 1)

    def value(self, field):
        """A value of a field's type."""
        type_ = field.type
        if type_ == field.TYPE_ENUM:
            return self.random.choice(field.enum_type.values).number
        if type_ == field.TYPE_BOOL:
            return self.chance(0.5)
        if type_ == field.TYPE_STRING:
            return self.random.choice(("", "a", "orders", "Märkte", "public/default"))
        if type_ == field.TYPE_BYTES:
            return self.random.randbytes(self.random.choice((0, 1, 5)))
        number = self.number()
        if type_ == field.TYPE_INT64:
            return number - 2**63
        if type_ == field.TYPE_INT32:
            return (number & 2**32 - 1) - 2**31 if self.chance(0.3) else number & 2**31 - 1
        return number & 2**32 - 1 if type_ == field.TYPE_UINT32 else number

    # ---- records

    def record(self):
        """A record of 13 words, mostly one that the writer takes."""
        record = [self.number() for _ in range(13)]
        record[4] = self.random.choice((0, 1, 3, 127, 128, 255, 256))
        record[5] = self.random.randint(0, 4)
        record[10] = self.random.choice((0, 1, 127, 128, 2**31, 2**32 - 1, self.number_32()))
        if self.chance(0.15):
            place, values = self.random.choice((
                (4, (257, 258, 2**31, 2**32, 2**63, 2**64 - 1)), (5, (5, 6, 13, 2**32, 2**64 - 1)), (10, (2**32, 2**32 + 1, 2**64 - 1)),
            ))
            record[place] = self.random.choice(values)
        return record


# ---- mistakes that change a field

def drop(of, where, place, number, wire, content):
    """Leaves it out."""
    del where[place]


def twice(of, where, place, number, wire, content):
    """Puts it a second time, with the same value or another."""
    again = (number, wire, of.number()) if wire == 0 and of.chance(0.5) else (number, wire, content)
    where.insert(of.random.randint(0, len(where)), again)


def other_wire(of, where, place, number, wire, content):
    """Gives it another wire type."""
    if number is not None:
        other = of.random.choice([w for w in WIRE_TYPES if w != wire])
        where[place] = number, other, of.content(other)


def any_number(of, where, place, number, wire, content):
    """Gives it a number about some limit."""
    if wire == 0:
        where[place] = number, wire, of.random.choice(EDGES)


def bad_varint(of, where, place, number, wire, content):
    """Gives it a varint that is too long or too wide."""
    if wire == 0:
        where[place] = number, wire, of.wide()


def length(of, where, place, number, wire, content):
    """A length that is not the content's."""
    if wire == 2:
        inner = of.bytes_of(content) if isinstance(content, list) else content
        said = of.random.choice((max(len(inner) - 1, 0), len(inner) + 1, len(inner) + 200, 2**31 - 1, 2**32, 2**63, 2**64 - 1))
        where[place] = None, None, shortest(number * 8 + 2) + shortest(said) + inner


CHANGES = {
    "drop": drop, "twice": twice, "other wire": other_wire, "any number": any_number, "bad varint": bad_varint,
    "length": length,
}
MISTAKES = tuple(CHANGES) + ("narrow", "packed", "group", "wire type", "number", "varint", "type")

"""What protobuf does with the bytes of a BaseCommand, rule by rule, for Debian's python3-protobuf 3.21 with its C++ parser
(`cpp`) and its Python parser (`python`). compare.py holds every parse against this reading, field by field, so that each
rule is what protobuf really did. Where a rule makes protobuf laxer or stricter than the library, its name is noted, with
the field of BaseCommand under which it happened (0 for BaseCommand itself); places that the library does not look at give
no laxness.

Laxer, where the library answers 16:
  twice        a singular number or name keeps the last value, a message that comes twice is merged
  width        a number is cut to the low 32 bits of its field
  wide         a varint of ten bytes is cut to its low 64 bits
  negative     a batch size below 0 is a number as any
  wire-type    a field of another wire type is an unknown field
  packed       an ack set is taken in the packed form too
  group        a group is skipped: in C++ to the end tag of its number, in Python to one whose last bytes are that tag
  number       C++ cuts a tag to its low 32 bits; Python takes a number from 2^29 on for an unknown field
  stop         C++ ends at a tag 0 and at a group's end in BaseCommand, with a warning, and keeps what came before
  ids, words   there is no limit to either
  no-message   BaseCommand requires only its type
Stricter, where the library may read:
  long-tag     C++ refuses a tag of more than 5 bytes; Python takes a tag that is not the shortest for an unknown field
  long-length  C++ refuses a length of more than 5 bytes
  enum         a number that the enum does not have is an unknown field, so that a required one is absent
  utf-8        Python refuses a name that is not UTF-8; C++ hands it out as bytes
  inside       what the library skips is looked into: other types' messages, ids and packed ack sets that are not read
"""

from google.protobuf.descriptor import FieldDescriptor as F

from model import int32, shortest, uint32

LAX = frozenset(
    "twice width wide negative wire-type packed group number stop ids words no-message".split()
)
STRICT = frozenset("long-tag long-length enum utf-8 inside".split())

# What the library reads of a message: field numbers, those among them that are messages again, and the most values of
# the repeated ones.
LEDGER_AND_ENTRY = ({1, 2}, {}, {})
ID_WITH_WORDS = ({1, 2, 5}, {}, {5: (16, "words")})
ID_WITH_BATCH = ({1, 2, 6}, {}, {})
READ = (
    {1, 4, 9, 10, 11, 16, 20, 28},
    {
        4: ({1, 2, 3, 4, 5}, {}, {}),
        9: ({1, 2, 3, 4}, {2: ID_WITH_BATCH}, {4: (4, "words")}),
        10: ({1, 2, 3}, {3: ID_WITH_WORDS}, {3: (64, "ids")}),
        11: ({1, 2}, {}, {}),
        16: ({1, 2}, {}, {}),
        20: ({1, 2}, {2: ID_WITH_WORDS}, {2: (64, "ids")}),
        28: ({1, 2, 3}, {3: LEDGER_AND_ENTRY}, {}),
    },
    {},
)

VARINTS = {F.TYPE_UINT64, F.TYPE_INT64, F.TYPE_UINT32, F.TYPE_INT32, F.TYPE_BOOL, F.TYPE_ENUM}


class Known:
    """A field of the .proto."""

    def __init__(self, field):
        self.type, self.repeated = field.type, field.label == F.LABEL_REPEATED
        self.wire = 0 if field.type in VARINTS else 2
        self.packable = self.repeated and self.wire == 0
        self.values = set(field.enum_type.values_by_number) if field.enum_type else None
        self.message = field.message_type.full_name if field.message_type else None


class Stops(Exception):
    """The parser refuses the bytes, by a rule of its own or as any parser would."""

    def __init__(self, by=None):
        super().__init__(by)
        self.by = by


def signed(value, bits):
    """The low bits of a number, as a signed one."""
    value &= (1 << bits) - 1
    return value - (1 << bits) if value >> (bits - 1) else value


class Parse:
    """One parse. The tree has the fields by number; `noted` has pairs of a field of BaseCommand and a rule, `absent`
    pairs of such a field and whether the library looks there; `refused` is None, or that pair, and `by` its rule."""

    def __init__(self, rules, data):
        self.rules, self.cpp, self.data = rules, rules.cpp, data
        self.tree, self.noted, self.absent = {}, set(), set()
        self.under, self.looks, self.by, self.refused = 0, True, None, None
        self.warned = False
        try:
            self.message(rules.base, 0, len(data), self.tree, READ, 0)
        except Stops as stops:
            self.refused, self.by = (self.under, self.looks), stops.by
        else:
            self.look_for_absent(rules.base, self.tree, READ, 0)

    def note(self, rule):
        """A rule has set in, at a place that the library looks at."""
        if self.looks:
            self.noted.add((self.under, rule))

    def note_of(self, rule, number, depth):
        """What happens to a field of BaseCommand, its type aside, counts for its message alone."""
        if self.looks:
            self.noted.add((number if depth == 0 and number > 1 else self.under, rule))

    # ---- varints

    def varint(self, at, end):
        """A varint cut to 64 bits, and where the next byte stands."""
        data = self.data
        if at < end and data[at] < 128:
            return data[at], at + 1
        value = shift = 0
        stop = min(end, at + 10)
        while at < stop:
            byte = data[at]
            at += 1
            value |= (byte & 127) << shift
            if byte < 128:
                if value >> 64:
                    self.note("wide")
                return value & 2**64 - 1, at
            shift += 7
        raise Stops

    def runs_on(self, at, end, rule):
        """The C++ parser takes no more than 5 bytes for a tag or a length."""
        if self.cpp and end - at > 5 and min(self.data[at : at + 5]) > 127:
            raise Stops(rule)

    def tag(self, at, end):
        """A tag, where the next byte stands, and whether the parser can know it as a field of the .proto."""
        self.runs_on(at, end, "long-tag")
        tag, after = self.varint(at, end)
        if tag >> 32:
            self.note("number")
            if self.cpp:
                tag &= 2**32 - 1
        return tag, after, self.cpp or after - at == 1 or self.data[at:after] == shortest(tag)

    def length(self, at, end):
        """Where the bytes of a length-delimited field start and stop."""
        self.runs_on(at, end, "long-length")
        size, start = self.varint(at, end)
        if start + size > end:
            raise Stops
        return start, start + size

    # ---- messages

    def message(self, name, at, end, tree, read, depth):
        """The fields from a place to an end, merged into a tree; read is None where the library does not look."""
        table, counts = self.rules.tables[name], {}
        while at < end:
            if depth == 0:
                self.under = 0
            tag, after, known = self.tag(at, end)
            number, wire = tag >> 3, tag & 7
            if self.cpp and depth == 0 and (tag == 0 or wire == 4):
                self.note("stop")
                self.warned = True
                return
            if number == 0 or wire == 4:
                raise Stops
            field = table.get(number)
            if read is not None and number in read[0]:
                self.look_at(field, number, wire, known, counts, depth)
            if field is None or not known:
                at = self.skip(number, wire, after, end)
            elif wire == field.wire:
                at = self.value(field, number, after, end, tree, read, depth)
            elif field.packable and wire == 2:
                at = self.packed(number, after, end, tree, read is not None and number in read[0])
            else:
                at = self.skip(number, wire, after, end)
        if read is not None:
            for number, (most, rule) in read[2].items():
                if counts.get(number, 0) > most:
                    self.note(rule)

    def look_at(self, field, number, wire, known, counts, depth):
        """Notes what makes a field that the library reads another thing to it than to protobuf."""
        counts[number] = counts.get(number, 0) + 1
        if counts[number] > 1 and not field.repeated:
            self.note_of("twice", number, depth)
        if wire != field.wire and wire != 3:
            self.note_of("packed" if field.packable and wire == 2 else "wire-type", number, depth)
        if not known:
            self.note_of("long-tag", number, depth)

    def value(self, field, number, at, end, tree, read, depth):
        """A field of its own wire type."""
        of_it = read is not None and number in read[0]
        if field.wire == 0:
            value, at = self.varint(at, end)
            value = self.as_number(field, value, of_it)
            if value is not None:
                self.put(field, number, value, tree)
            return at
        start, stop = self.length(at, end)
        if field.message is None:
            self.put(field, number, self.as_bytes(field, self.data[start:stop]), tree)
            return stop
        inner = {} if field.repeated else tree.setdefault(number, {})
        if field.repeated:
            self.put(field, number, inner, tree)
        if depth == 0:
            self.under = number
        below, looks = read[1].get(number) if of_it else None, self.looks
        self.looks = below is not None
        self.message(field.message, start, stop, inner, below, depth + 1)
        self.looks = looks
        return stop

    def put(self, field, number, value, tree):
        """The last value of a singular field, a further one of a repeated field."""
        if field.repeated:
            tree.setdefault(number, []).append(value)
        else:
            tree[number] = value

    def as_number(self, field, value, of_it):
        """A varint by the type of its field; None for a number that its enum does not have."""
        type_ = field.type
        if type_ == F.TYPE_UINT64:
            return value
        if type_ == F.TYPE_INT64:
            return signed(value, 64)
        if type_ == F.TYPE_BOOL:
            return value != 0
        if of_it and not (uint32 if type_ == F.TYPE_UINT32 else int32)(value):
            self.note("width")
        if type_ == F.TYPE_UINT32:
            return value & 2**32 - 1
        value = signed(value, 32)
        if type_ == F.TYPE_ENUM and value not in field.values:
            if of_it:
                self.note("enum")
            return None
        if of_it and value < 0 and type_ == F.TYPE_INT32:
            self.note("negative")
        return value

    def as_bytes(self, field, value):
        """A string is text where it is UTF-8."""
        if field.type == F.TYPE_STRING:
            try:
                return value.decode("utf-8")
            except UnicodeDecodeError:
                if not self.cpp:
                    raise Stops("utf-8") from None
        return value

    def packed(self, number, at, end, tree, of_it):
        """An ack set in the packed form, looked into also where the library does not read it."""
        at, stop = self.length(at, end)
        looks, self.looks = self.looks, self.looks and of_it
        while at < stop:
            value, at = self.varint(at, stop)
            tree.setdefault(number, []).append(signed(value, 64))
        self.looks = looks
        return stop

    def skip(self, number, wire, at, end):
        """An unknown field: where the next one starts."""
        if wire == 0:
            return self.varint(at, end)[1]
        if wire == 2:
            return self.length(at, end)[1]
        if wire == 3:
            self.note("group")
            return self.skip_group(number, at, end)
        if wire not in (1, 5):
            raise Stops
        at += 8 if wire == 1 else 4
        if at > end:
            raise Stops
        return at

    def skip_group(self, number, at, end):
        """A group from behind its start tag on."""
        while at < end:
            tag, at, _ = self.tag(at, end)
            inner, wire = tag >> 3, tag & 7
            if wire == 4:
                if inner != number if self.cpp else not self.closes(number, at):
                    raise Stops
                return at
            if self.cpp and inner == 0:
                raise Stops
            at = self.skip(inner, wire, at, end)
        raise Stops

    def closes(self, number, at):
        """Whether the bytes before a place are those of a group's end tag."""
        closing = shortest(number * 8 + 4)
        return self.data[at - len(closing) : at] == closing

    # ---- required fields

    def look_for_absent(self, name, tree, read, under):
        """Notes absent required fields by the field of BaseCommand, and whether the library looks there."""
        for number in self.rules.required[name]:
            if number not in tree:
                self.absent.add((under, read is not None))
        for number, of_message in self.rules.messages[name]:
            inner = tree.get(number)
            if inner is not None:
                below = read[1].get(number) if read is not None else None
                for one in inner if isinstance(inner, list) else (inner,):
                    self.look_for_absent(of_message, one, below, under or number)


class Rules:
    """The fields of the .proto, and the parser that is in force; a Parse may be one with an error in it."""

    def __init__(self, base, parser, parse=Parse):
        self.base, self.cpp, self.one = base.full_name, parser == "cpp", parse
        self.tables, self.required, self.messages = {}, {}, {}
        self.add(base)

    def add(self, descriptor):
        """A message, and those in it."""
        name = descriptor.full_name
        if name in self.tables:
            return
        self.tables[name] = {f.number: Known(f) for f in descriptor.fields}
        self.required[name] = [f.number for f in descriptor.fields if f.label == F.LABEL_REQUIRED]
        self.messages[name] = [(f.number, f.message_type.full_name) for f in descriptor.fields if f.message_type]
        for field in descriptor.fields:
            if field.message_type:
                self.add(field.message_type)

    def parse(self, data):
        """One parse."""
        return self.one(self, data)


def tree_of(message):
    """The fields of a parsed message by number, as a Parse has them."""
    tree = {}
    for field, value in message.ListFields():
        if field.message_type is None:
            tree[field.number] = list(value) if field.label == F.LABEL_REPEATED else value
        elif field.label == F.LABEL_REPEATED:
            tree[field.number] = [tree_of(one) for one in value]
        else:
            tree[field.number] = tree_of(value)
    return tree

"""The fixed cases of golden.txt: every type, every reason to refuse, every limit and one past it, every cut of a few
commands, records. Their results are the model's, each held against protobuf as any other command."""

import sys

from generate import OTHER_TYPES, TYPES
from model import ACK, BUFFER_BYTES, CLOSE, FLOW, LIST_WORDS, MESSAGE, REASONS, REDELIVER, SEEK, SUBSCRIBE, shortest

SEED = 17
OF_EACH = 4
# What the writer alone gives, and what the limits below have.
NOT_OF_BYTES = {"short-list", "short-buffer", "count", "batch", "redelivery"}
TOP = 2**64 - 1

HEAD = """# Fixed bytes of commands with what the readers and the writer of the library make of them; golden.c replays them.
# Made by `compare.py --golden` with the rules of model.py, each command held against Debian's python3-protobuf 3.21
# (both of its parsers); tests/wire/run says whether it still comes out the same.
#
#   command M HEX = ANSWER [8 words, then the words of the list]     M words of list are lent
#   message HEX = ANSWER [13 words]
#   record M 13 words = ANSWER [HEX]                                 a buffer of M bytes is lent
"""


def number(field, value):
    """A varint field."""
    return shortest(field * 8) + (value if isinstance(value, bytes) else shortest(value))


def part(field, *pieces):
    """A length-delimited field."""
    inner = b"".join(pieces)
    return shortest(field * 8 + 2) + shortest(len(inner)) + inner


def command(type_, *pieces):
    """A command with the fields of its message."""
    return number(1, type_) + part(type_, *pieces)


def an_id(words=0, *more):
    """The fields of the id (3,4), with words of an ack set."""
    return number(1, 3) + number(2, 4) + number(5, 6) * words + b"".join(more)


def limits():
    """Each limit and one past it, by the field that has it."""
    flow, consumer, request = (lambda *pieces: command(FLOW, *pieces)), number(1, 7), number(2, 9)
    names = part(1, b"orders") + part(2, b"market")
    nine = b"\x80" * 9
    for varint in (nine + b"\x01", nine + b"\x02", b"\xff" * 9 + b"\x01", b"\xff" * 10 + b"\x00", b"\x85" + nine[1:] + b"\x00"):
        yield "varints of ten bytes and more", flow(number(1, varint), number(2, 5))
        yield "varints of ten bytes and more", flow(consumer, number(2, 5), number(3, varint))
    for most in (2**32 - 1, 2**32):
        yield "permits", flow(consumer, number(2, most))
        yield "redelivery count", command(MESSAGE, consumer, part(2, an_id()), number(3, most))
    for value in (2**31 - 1, 2**31, 2**32 - 1, 2**64 - 2**31 - 1, 2**64 - 2**31, TOP):
        yield "type", number(1, value)
        yield "sub type", command(SUBSCRIBE, names, number(3, value), number(4, 7), number(5, 9))
        yield "ack type", command(ACK, consumer, number(2, value))
        yield "batch size", command(MESSAGE, consumer, part(2, an_id(0, number(6, value))))
    for field in (1, 2**29 - 1, 2**29):
        yield "field numbers", number(1, FLOW) + part(FLOW, consumer, number(2, 5)) + shortest(field * 8 + 5) + b"\x00" * 4
    for tag in (b"\x00\x00", b"\x80\x00\x00", b"\x05\x00\x00\x00\x00", b"\x06\x00", b"\x07\x00", b"\x0b\x0c", b"\x0c"):
        yield "tags that are none", number(1, FLOW) + part(FLOW, consumer, number(2, 5)) + tag
    for count in (0, 1, 64, 65):
        yield "ids", command(ACK, consumer, number(2, 0), part(3, an_id()) * count)
        yield "ids", command(REDELIVER, consumer, part(2, an_id()) * count)
    for words in (16, 17):
        yield "words of an id", command(ACK, consumer, number(2, 0), part(3, an_id(words)))
        yield "words of an id", command(REDELIVER, consumer, part(2, an_id(words)))
    yield "the longest list", command(ACK, consumer, number(2, 0), part(3, an_id(16)) * 64)
    for words in (4, 5):
        yield "words of a Message", command(MESSAGE, consumer, part(2, an_id()), number(4, TOP) * words)
    for target in (b"", number(4, 1000), part(3, an_id()), part(3, an_id()) * 2, part(3, an_id(17)), part(3, number(1, 3))):
        yield "a seek's target", command(SEEK, consumer, request, target)
    yield "another type's message", number(1, CLOSE) + part(ACK, b"\xff") + part(CLOSE, consumer, request) + part(ACK, b"\xff")
    yield "no bytes", b""


def others():
    """Types that no reader takes."""
    for type_ in OTHER_TYPES + (0, 1, 21, 27, 29, 99):
        yield number(1, type_)
        yield number(1, type_) + b"\x52"
    yield number(1, 2) + number(1, 2)


def records(generator):
    """The largest and the smallest record, limits, and some at random."""
    largest = [TOP, TOP, TOP, TOP, 256, 4, TOP, TOP, TOP, TOP, 2**32 - 1, TOP, TOP]
    yield largest, BUFFER_BYTES
    yield [0] * 13, BUFFER_BYTES
    for m in (0, 255, 257):
        yield largest, m
    for place, values in ((4, (127, 128, 255, 256, 257)), (5, (0, 1, 2, 3, 4, 5, 14)), (10, (2**31, 2**32 - 1, 2**32))):
        for value in values:
            record = [7, 1, 0, 500, 3, 1, 6, 8, 9, 10, 1, 2, 99]
            record[place] = value
            yield record, BUFFER_BYTES
    for _ in range(30):
        yield generator.record(), BUFFER_BYTES


class Lines:
    """The lines of the file, each case once."""

    def __init__(self, comparison):
        self.comparison, self.seen, self.lines = comparison, set(), [HEAD]

    def remark(self, text):
        """A line that says what follows."""
        self.lines.append(f"\n# {text}\n")

    def add(self, data, m=LIST_WORDS):
        """A command for the reader of its type, or both where neither takes it."""
        self.comparison.commands([(data, m)])
        model = self.comparison.model
        of_commands, of_message = model.read_command(data, m), model.read_message(data)
        if (data, m) in self.seen:
            return
        self.seen.add((data, m))
        if not (of_commands.answer == 17 and of_message.answer != 17):
            self.case(f"command {m} {data.hex() or '-'}", of_commands)
        if of_message.answer != 17 or of_commands.answer == 17:
            self.case(f"message {data.hex() or '-'}", of_message)

    def case(self, given, reading):
        """A line with its answer and words."""
        words = [reading.answer] + (reading.words or []) + list(reading.list)
        self.lines.append(f"{given} = {' '.join(map(str, words))}\n")

    def add_record(self, record, m):
        """A record with the bytes of a buffer."""
        self.comparison.written([(record, m)])
        answer, bytes_, _ = self.comparison.model.write_message(record, m)
        self.lines.append(f"record {m} {' '.join(map(str, record))} = {answer}{' ' if bytes_ else ''}{bytes_.hex()}\n")


def short(make, most=90):
    """The next command of few bytes."""
    while True:
        data = make()
        if len(data) <= most:
            return data


def of_every_type(lines, model, generator):
    """Some commands of each type, made at random and by protobuf."""
    wanted = {(type_, made): 0 for type_ in TYPES for made in (False, True)}
    lines.remark("commands of every type, with unknown fields and long varints, and as protobuf writes them")
    while min(wanted.values()) < OF_EACH:
        made = min(wanted, key=wanted.get)[1]
        data = short(generator.written if made else lambda: generator.command(0))
        reading = model.read_message(data)
        type_ = reading.type if reading.answer == 0 else model.read_command(data).type
        if wanted.get((type_, made), OF_EACH) < OF_EACH:
            wanted[type_, made] += 1
            lines.add(data)


def for_every_reason(lines, model, generator):
    """Some commands refused for each reason that the limits do not have."""
    for reason, text in REASONS.items():
        if reason not in NOT_OF_BYTES | {"ids", "words"}:
            lines.remark(f"16: {text}")
            for _ in range(OF_EACH):
                lines.add(refused_by(model, generator, reason))


def at_limits(lines):
    """Limits of numbers and of what is lent, types that are not taken."""
    last = None
    for what, data in limits():
        if what != last:
            lines.remark(what)
        last = what
        lines.add(data)
    lines.remark("types that are not taken, and 16 before 17")
    for data in others():
        lines.add(data)
    lines.remark("lists shorter than 1,216 words, and longer")
    for m in (0, 1215, 1216, 1217):
        lines.add(command(FLOW, number(1, 7), number(2, 5)), m)
        lines.add(command(ACK, number(1, 7), number(2, 0), part(3, an_id(1))), m)


def some_damaged(lines, generator, damaged):
    """Three commands, each cut of them, and each byte of them changed."""
    for type_, pieces in (
        (SUBSCRIBE, (part(1, b"orders"), part(2, b"market"), number(3, 1), number(4, 7), number(5, 1000))),
        (ACK, (number(1, 7), number(2, 0), part(3, an_id(1)), part(3, an_id()))),
        (MESSAGE, (number(1, 7), part(2, an_id(0, number(3, TOP), number(6, 3))), number(3, 300), number(4, 6))),
    ):
        data = command(type_, *pieces)
        lines.remark("a command, each cut of it, and each byte of it changed")
        lines.add(data)
        for one in damaged(generator, data):
            lines.add(one)


def write(comparison, generator, damaged):
    """Prints the file."""
    lines = Lines(comparison)
    of_every_type(lines, comparison.model, generator)
    for_every_reason(lines, comparison.model, generator)
    at_limits(lines)
    some_damaged(lines, generator, damaged)
    lines.remark("records")
    for record, m in records(generator):
        lines.add_record(record, m)
    sys.stdout.write("".join(lines.lines))
    return 0


def refused_by(model, generator, reason):
    """A short command that is refused for a reason by the reader of its type."""
    while True:
        data = short(lambda: generator.command(1), 60)
        of_commands, of_message = model.read_command(data), model.read_message(data)
        if (of_message if of_commands.answer == 17 else of_commands).reason == reason:
            return data

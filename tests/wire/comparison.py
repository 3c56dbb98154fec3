"""One comparison of the library with the rules (model.py) and with protobuf, as compare.py says it."""

import struct
import subprocess
import warnings
from collections import Counter

from google.protobuf.internal import api_implementation
from google.protobuf.message import DecodeError

import pulsar_pb2 as protocol
from model import ACK, CLOSE, FLOW, LIST_WORDS, MESSAGE, REASONS, REDELIVER, SEEK, SUBSCRIBE, Model
from protobuf_rules import LAX, STRICT, Parse, Rules, tree_of
from rewrite import is_text, shortened, tidied

NAMES = {SUBSCRIBE: "Subscribe", ACK: "Ack", FLOW: "Flow", CLOSE: "Close", REDELIVER: "Redeliver", SEEK: "Seek", MESSAGE: "Message"}
# The rules of protobuf that a reason to refuse may stand against, where they have other names.
LAXER = {"number": ("number", "stop"), "group": ("group", "stop")}
# The rules that a parser does not have.
NOT_OF = {"cpp": {"utf-8"}, "python": {"stop", "long-length"}}


class Differs(Exception):
    """Something is not as it has to be."""


class Library:
    """The library, asked in batches."""

    def __init__(self, path):
        self.serve = subprocess.Popen([path], stdin=subprocess.PIPE, stdout=subprocess.PIPE)

    def ask(self, cases):
        """Results of cases (call, bytes, m): fault, answer and bytes of each."""
        batch = b"".join(struct.pack("<BII", call, len(data), m) + data for call, data, m in cases)
        self.serve.stdin.write(struct.pack("<I", len(batch)) + batch)
        self.serve.stdin.flush()
        results = []
        for _ in cases:
            head = self.serve.stdout.read(13)
            if len(head) < 13:
                raise Differs("the library's program ended")
            fault, answer, length = struct.unpack("<BQI", head)
            results.append((fault, answer, self.serve.stdout.read(length)))
        return results


class Protobuf:
    """The parser of protobuf that is in force."""

    def __init__(self):
        self.name = api_implementation.Type()
        self.warnings = []
        warnings.simplefilter("always")
        warnings.showwarning = lambda *told: self.warnings.append(told)

    def parse(self, data):
        """The message, or None where it is refused, and whether it was warned of."""
        message = protocol.BaseCommand()
        del self.warnings[:]
        try:
            message.MergeFromString(data)
        except (DecodeError, UnicodeDecodeError):
            return None, False
        return message, bool(self.warnings)


def packed_words(words):
    """Words as serve has them."""
    return struct.pack("<%dQ" % len(words), *words)


class Comparison:
    """What was compared, counted; ends with Differs at the first thing that is not as it has to be."""

    def __init__(self, library, model=None, parse=Parse):
        self.library, self.model, self.protobuf = library, model or Model(), Protobuf()
        self.rules = Rules(protocol.BaseCommand.DESCRIPTOR, self.protobuf.name, parse)
        self.count, self.outcomes, self.reasons, self.by_rule, self.records = 0, Counter(), Counter(), Counter(), Counter()

    # ---- library and model

    def commands(self, inputs):
        """Compares commands, each bytes and the words of a list."""
        cases = [case for data, m in inputs for case in ((1, data, m), (2, data, 0))]
        results = iter(self.library.ask(cases))
        for data, m in inputs:
            command, message = self.model.read_command(data, m), self.model.read_message(data)
            self.same(data, m, command, next(results), "the reader of commands")
            self.same(data, m, message, next(results), "the reader of Message")
            try:
                self.held_against_protobuf(data, m, command, message)
            except Differs as differs:
                raise Differs(f"{differs}\n  bytes {data.hex() or '-'}") from None
            self.counted(command, message)

    def same(self, data, m, reading, result, what):
        """The library's result is the model's."""
        fault, answer, words = result
        expected = b"" if reading.words is None else packed_words(reading.words) + packed_words(reading.list)
        if not fault and answer == reading.answer and words == expected:
            return
        numbers = struct.unpack("<%dQ" % (len(words) // 8), words)
        raise Differs(
            f"{what} {'changed what it may not change' if fault else 'does not go by the rules'}\n"
            f"  bytes {data.hex() or '-'}, a list of {m} words\n"
            f"  it answers {answer} {numbers}\n"
            f"  by the rules {reading.answer} ({reading.reason}) {reading.words} {reading.list}"
        )

    def counted(self, command, message):
        """Counts a command by the reader that takes its type."""
        self.count += 1
        reading = message if command.answer == 17 else command
        if reading.answer == 16:
            self.outcomes["16"] += 1
            self.reasons[reading.reason] += 1
        else:
            self.outcomes["17" if reading.answer == 17 else NAMES[reading.type]] += 1

    # ---- protobuf and its rules

    def held_against_protobuf(self, data, m, command, message):
        """Both readings against protobuf's; it knows no list, so that a short one has nothing to be held against."""
        parse = self.parsed_by_rule(data)
        if m >= LIST_WORDS:
            self.related(data, command, parse, self.model.commands)
        self.related(data, message, parse, (MESSAGE,))

    def parsed_by_rule(self, data):
        """The parse by protobuf's rules, which is protobuf's."""
        parsed, warned = self.protobuf.parse(data)
        parse = self.rules.parse(data)
        if (parsed is None) != (parse.refused is not None):
            raise Differs(f"protobuf {'refuses' if parsed is None else 'parses'} this, not so its rules ({parse.by})")
        if parsed is not None:
            tree = tree_of(parsed)
            if tree != parse.tree or warned != parse.warned or parsed.IsInitialized() != (not parse.absent):
                raise Differs(f"protobuf reads {tree}, by its rules {parse.tree}")
        return parse

    def related(self, data, reading, parse, takes):
        """Model and protobuf, for one reader."""
        if reading.answer == 16:
            self.by_rule[self.refused_too(data, reading.reason, parse, takes)] += 1
            return
        places = (0, reading.type) if reading.answer != 17 else (0,)
        noted = {rule for place, rule in parse.noted if place in places}
        if noted & LAX:
            raise Differs(f"the model answers {reading.answer}, where protobuf is laxer: {noted & LAX}")
        stricter = self.stricter(parse, places, noted)
        if reading.answer == 17:
            self.other_type(reading, parse, takes, stricter)
        else:
            self.same_values(data, reading, parse, stricter)
        for rule in stricter or ("same",):
            self.by_rule[rule if reading.answer != 17 or stricter else "17"] += 1

    def refused_too(self, data, reason, parse, takes):
        """By which rule protobuf goes with a refusal by 16. Where a rule of its own made it refuse, or not see what is
        refused, it has to go with it also once tags and lengths are shortest and what is not looked into is empty."""
        strict = self.strictly(parse)
        if strict is None:
            return self.both_refuse(reason, parse, takes)
        self.by_rule[strict] += 1
        short = shortened(self.model, data)
        reading = self.model.read_message(short) if MESSAGE in takes else self.model.read_command(short)
        if (reading.answer, reading.reason) != (16, reason):
            raise Differs(f"refused ({reason}), but in shortest form {reading.answer} ({reading.reason})")
        return self.both_refuse(reason, self.parsed_by_rule(short), takes)

    def strictly(self, parse):
        """The rule of its own by which protobuf refused, or did not see all."""
        if parse.refused is None:
            hidden = not self.rules.cpp and any(rule == "long-tag" for _, rule in parse.noted)
            return "long-tag" if hidden else None
        place, looks = parse.refused
        return "inside" if not looks or place not in (0, parse.tree.get(1)) else parse.by

    def both_refuse(self, reason, parse, takes):
        """By which rule protobuf goes with a refusal."""
        type_ = parse.tree.get(1)
        for rule in LAXER.get(reason, (reason,)):
            if (0, rule) in parse.noted or (type_, rule) in parse.noted:
                return rule
        if parse.refused is not None or (0, True) in parse.absent or (type_, True) in parse.absent:
            return "both refuse"
        if reason == "no-message" and type_ in takes and type_ not in parse.tree:
            return reason
        raise Differs(f"the model refuses this ({reason}), protobuf does not, and no rule says why: {parse.noted}")

    def stricter(self, parse, places, noted):
        """The rules by which protobuf reads less than the model, which reads or answers 17."""
        rules = noted & STRICT
        if parse.refused is not None:
            place, looks = parse.refused
            rules.add("inside" if place not in places or not looks else parse.by)
        for place, looks in parse.absent:
            if place not in places or not looks:
                rules.add("inside")
            elif not rules & {"enum", "long-tag"}:
                raise Differs("protobuf lacks a required field that the model has read")
        if not rules <= STRICT:
            raise Differs(f"the model reads what protobuf refuses ({parse.by})")
        return rules

    def other_type(self, reading, parse, takes, stricter):
        """A type that is not taken is protobuf's type too, unless a rule hides it."""
        type_ = parse.tree.get(1)
        hidden = parse.refused is not None or stricter & {"enum", "long-tag"}
        if not hidden and (type_ != reading.type or type_ in takes):
            raise Differs(f"17 for type {reading.type}, protobuf has {type_}")

    def same_values(self, data, reading, parse, stricter):
        """Every field read has protobuf's value."""
        tree, blank = parse.tree, False
        if parse.refused is not None or "long-tag" in stricter:
            blank = not self.rules.cpp
            parsed, _ = self.protobuf.parse(tidied(self.model, data, reading.type, blank))
            if parsed is None:
                raise Differs("protobuf refuses this command also when it is tidied")
            tree = tree_of(parsed)
        try:
            found, names = values_of(reading.type, tree)
        except KeyError:
            raise Differs("protobuf lacks a field that the model has read") from None
        words = list(reading.words)
        if reading.type == SUBSCRIBE:
            for at, name in zip((3, 5), names):
                part = data[words[at] : words[at] + words[at + 1]]
                if part != name and not (blank and not is_text(part)):
                    raise Differs(f"a name is {part}, protobuf has {name}")
            words = words[:3]
        if words + list(reading.list) != found:
            raise Differs(f"protobuf has {found}, the model {words} {reading.list}")

    def never_met(self):
        """The reasons and rules that no command has met."""
        of_records = {"short-buffer", "count", "batch", "redelivery"}
        rules = (LAX | STRICT) - NOT_OF[self.protobuf.name]
        return (set(REASONS) - of_records - set(self.reasons)) | (rules - set(self.by_rule))

    # ---- the writer

    def written(self, records):
        """Compares records written, each 13 words and the bytes of a buffer, and what was written read back."""
        made = [self.model.write_message(record, m) for record, m in records]
        cases = [(3, packed_words(record), m) for record, m in records] + [(2, bytes_, 0) for _, bytes_, _ in made]
        results = self.library.ask(cases)
        for (record, m), (answer, bytes_, reason), result, back in zip(records, made, results, results[len(records) :]):
            if result != (0, answer, bytes_):
                told = f"the writer gives {result}, by the rules {answer} {bytes_.hex()}"
                raise Differs(f"{told}\n  record {record}, a buffer of {m} bytes")
            self.records["16" if reason else "written"] += 1
            if not reason:
                self.read_back(record, bytes_, back)

    def read_back(self, record, bytes_, back):
        """protobuf writes the same bytes, and all three read the record back."""
        command = protocol.BaseCommand(type=MESSAGE)
        message = command.message
        message.consumer_id, message.redelivery_count = record[0], record[10]
        of_id = message.message_id
        of_id.ledgerId, of_id.entryId, of_id.batch_size = record[1], record[2], record[4]
        of_id.partition = of_id.batch_index = -1
        message.ack_set.extend(word - 2**64 if word >> 63 else word for word in record[6 : 6 + record[5]])
        if command.SerializeToString() != bytes_:
            raise Differs(f"protobuf writes {command.SerializeToString().hex()}\n  the library {bytes_.hex()}")
        parsed, _ = self.protobuf.parse(bytes_)
        if parsed != command:
            raise Differs(f"protobuf does not read back {bytes_.hex()}")
        words = record[:3] + [0] + record[4:6] + record[6 : 6 + record[5]] + [0] * (4 - record[5]) + [record[10], 0, 0]
        if back != (0, 0, packed_words(words)) or self.model.read_message(bytes_).words != words:
            raise Differs(f"the reader does not read back {bytes_.hex()}: {back}")


def raw(name):
    """The bytes of a name."""
    return name if isinstance(name, bytes) else name.encode()


def unsigned(words):
    """The words of an ack set, which is of signed numbers."""
    return [word & 2**64 - 1 for word in words]


def groups_of(ids):
    """Ids in groups of a list."""
    return [word for one in ids for word in [one[1], one[2], len(one.get(5, ()))] + unsigned(one.get(5, ()))]


def values_of(type_, tree):
    """The words that protobuf's reading of a command makes, and its names, which stand in the words by their places."""
    t, groups = tree[type_], []
    if type_ == SUBSCRIBE:
        return [t[4], t[5], 1 if t.get(3) == 1 else 0], (raw(t[1]), raw(t[2]))
    if type_ == MESSAGE:
        of_id, words = t[2], unsigned(t.get(4, ()))
        head = [t[1], of_id[1], of_id[2], 0, of_id.get(6, 0), len(words)]
        return head + words + [0] * (4 - len(words)) + [t.get(3, 0), 0, 0], ()
    if type_ == FLOW:
        words = [t[1], 0, t[2]]
    elif type_ == CLOSE:
        words = [t[1], t[2]]
    elif type_ == SEEK:
        words = [t[1], t[2]] + ([1, t[3][1], t[3][2]] if 3 in t else [])
    else:
        groups = groups_of(t.get(3 if type_ == ACK else 2, ()))
        words = [t[1], 0, len(groups)]
    return words + [0] * (8 - len(words)) + groups, ()

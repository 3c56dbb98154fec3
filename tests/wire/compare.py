#!/usr/bin/env python3
"""Holds the library's readers and writer of commands as bytes against the rules (model.py) and against protobuf.

    compare.py COUNT SEED     COUNT random and damaged commands, and a tenth as many records
    compare.py --errors       wrong rules in the place of the right ones: every one has to be told
    compare.py --golden       prints the fixed cases of golden.txt

WIRE_SERVE is the path of serve, built with the library; the module that protoc makes of pulsar.proto is on PYTHONPATH.

For every command:
  library = model     answer, words and list of both readers, always;
  protobuf = its own rules (protobuf_rules.py), field by field: refused or read, what was read, what is absent, a warning;
  model and protobuf  agree but where a named rule sets them apart, and then as the rule says:
    read     protobuf parses and has the same values; or a rule by which it is stricter applies, and it has the same values
             once the command is tidied (only the fields that are read, shortest tags and lengths);
    17       protobuf has that type, or none where its enum lacks it;
    16       protobuf refuses too, lacks a required field too, or the rule that makes it laxer is the refusal's reason.
"""

import os
import sys

import pulsar_pb2 as protocol
from comparison import Comparison, Differs, Library
from generate import Generator
from model import BUFFER_BYTES

BATCH = 2000


# ---- what is compared

def damaged(generator, data):
    """Each cut of a command, and each byte of it changed."""
    for at in range(len(data)):
        yield data[:at]
        yield data[:at] + bytes([data[at] ^ generator.random.randint(1, 255)]) + data[at + 1 :]


def inputs(generator, count):
    """So many commands, each with the words of a list: about a third made at random, a tenth by protobuf itself, and the
    rest cut or changed."""
    made = 0
    while made < count:
        share = generator.random.random()
        if share < 0.01:
            data = generator.many()
        elif share < 0.2:
            data = generator.written()
        else:
            data = generator.command()
        some = [data]
        if len(data) < 120 and share > 0.987:
            some += damaged(generator, data)
        for data in some[: count - made]:
            short = generator.chance(0.01)
            yield data, generator.random.choice((0, 1, 19, 1215) if short else (1216, 1216, 1217, 1300))
            made += 1


def in_batches(items):
    """Lists of some items each."""
    batch = []
    for item in items:
        batch.append(item)
        if len(batch) == BATCH:
            yield batch
            batch = []
    if batch:
        yield batch


def records(generator, count):
    """So many records, each with the bytes of a buffer."""
    for _ in range(count):
        short = generator.chance(0.03)
        yield generator.record(), generator.random.choice((0, 255) if short else (BUFFER_BYTES, 300))


def compare(comparison, count, seed):
    """Compares so many commands and a tenth as many records."""
    generator = Generator(seed, protocol)
    for batch in in_batches(inputs(generator, count)):
        comparison.commands(batch)
    for batch in in_batches(records(generator, count // 10)):
        comparison.written(batch)


def counts(counter):
    """Counts by name, the largest first."""
    return ", ".join(f"{name} {number:,}" for name, number in sorted(counter.items(), key=lambda item: (-item[1], item[0])))


def report(comparison):
    """What was compared, by outcome and by rule."""
    parser, count = comparison.protobuf.name, comparison.count
    print(f"wire: {count:,} commands, library, rules and protobuf ({parser} parser) compared: {counts(comparison.outcomes)}")
    print(f"wire: reasons of 16: {counts(comparison.reasons)}")
    print(f"wire: rules and protobuf, both readers: {counts(comparison.by_rule)}")
    print(f"wire: records: {counts(comparison.records)}; protobuf writes the same bytes, all read them back")


def main(words):
    """The three ways to call it."""
    comparison = Comparison(Library(os.environ["WIRE_SERVE"]))
    # libprotobuf writes a line to standard error for each name that is not UTF-8: what is told here goes to a copy.
    sys.stderr = os.fdopen(os.dup(2), "w")
    os.dup2(os.open(os.devnull, os.O_WRONLY), 2)
    if words == ["--errors"]:
        import errors

        return errors.all_told(Comparison, comparison.library, compare, Differs)
    if words == ["--golden"]:
        import golden

        return golden.write(comparison, Generator(golden.SEED, protocol), damaged)
    count, seed = int(words[0]), int(words[1])
    compare(comparison, count, seed)
    if count >= 10000 and comparison.never_met():
        raise Differs(f"never met: {', '.join(sorted(comparison.never_met()))}")
    report(comparison)
    return 0


if __name__ == "__main__":
    try:
        sys.exit(main(sys.argv[1:]))
    except Differs as differs:
        print(f"wire: FAILED: {differs}")
        sys.exit(1)

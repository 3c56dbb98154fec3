# The two commands: `make run` (the main job) and `make test` (the gate); `make faults` runs the library
# for C at its limits and on damaged words alone, `make wire` holds its commands as bytes against protobuf,
# `make trace` holds the trace player against the rules, `make rows` rows of calls against the same calls one by one,
# `make examples` runs the library's callers, `make bench` times its calls and the player, `make edits` reads what a gate
# run said of the must-fail edits, `make runs` is the gate without its proofs, `make library` and `make player` build the
# library and the player alone, `make install` puts the library in place.
.PHONY: run test runs library player faults wire trace rows examples bench edits install

# The library for C, under the name that its callers know.
LIBRARY = target/staticlib/libbroker.a

# The trace player, where `rt run` leaves it.
PLAYER = crates/player/out/player

# Where `make install` puts headers, library and pkg-config file; DESTDIR comes before it.
PREFIX = /usr/local

# Random calls of the faults' last part; `make faults CALLS=1000000` is the long run.
CALLS = 100000

# Random commands as bytes; `make wire COMMANDS=1000000` is the long run.
COMMANDS = 100000

# Records of the random traces; `make trace RECORDS=100000` is the long run.
RECORDS = 10000

# Random rows of calls; `make rows ROWS=1000000` is the long run.
ROWS = 100000

WARNINGS = -Wall -Wextra -Wconversion -pedantic -Werror

# The header as C and as C++, then the program that calls every export with what it has to refuse.
define run-faults
gcc -x c -std=c99 $(WARNINGS) -fsyntax-only include/broker.h
g++ -x c++ $(WARNINGS) -fsyntax-only include/broker.h
gcc -std=c99 -O2 $(WARNINGS) -Iinclude -Itests/faults tests/faults/*.c $(LIBRARY) -o target/faults
target/faults $(CALLS)
endef

# Commands as bytes: the fixed ones, the rules, protobuf.
run-wire = LIBBROKER=$(LIBRARY) tests/wire/run $(COMMANDS)

# The header that records traces as C and as C++, the bytes that it writes, and the market morning recorded and played.
define run-recording
gcc -x c -std=c99 $(WARNINGS) -fsyntax-only include/broker_trace.h
g++ -x c++ $(WARNINGS) -fsyntax-only include/broker_trace.h
gcc -std=c99 -O2 $(WARNINGS) -Iinclude tests/trace/record.c -o target/record
target/record target/example.trace
cmp target/example.trace crates/player/stdin
$(build-terminal)
tests/trace/terminal target/terminal $(PLAYER)
endef

# The market morning in C.
build-terminal = gcc -std=c99 -O2 $(WARNINGS) -Iinclude examples/terminal.c $(LIBRARY) -o target/terminal

# The callers in C and Rust, whose output has to be the stored one; the loop for bare metal has only to
# compile, as its board is not here.
define run-examples
$(build-terminal)
target/terminal >target/terminal.out
diff examples/terminal.expected target/terminal.out
gcc -std=c99 -O2 $(WARNINGS) -Iinclude examples/wire.c $(LIBRARY) -o target/wire_example
target/wire_example >target/wire_example.out
diff examples/wire.expected target/wire_example.out
gcc -std=c99 -O2 $(WARNINGS) -Iinclude examples/row.c $(LIBRARY) -o target/row_example
target/row_example >target/row_example.out
diff examples/row.expected target/row_example.out
gcc -std=c99 -O2 -ffreestanding $(WARNINGS) -Iinclude -c examples/firmware_loop.c -o target/firmware_loop.o
rustc --edition 2024 -O examples/caller.rs -C link-arg=$(LIBRARY) -o target/caller
target/caller >target/caller.out
diff examples/caller.expected target/caller.out
@echo "examples: terminal.c, wire.c, row.c and caller.rs print what is stored, firmware_loop.c compiles"
endef

# Prove and build what there is, the library for C too, and run the case runner and the market morning.
run:
	rt all check
	$(MAKE) --no-print-directory library
	cd crates/cases && rt run <stdin
	$(build-terminal)
	target/terminal

# The crates as they are drawn, the proofs from nothing with the must-fail edits, then what runs the library.
test:
	.ci/run

# The library for C: proved and built in its crate, and put where its callers look for it.
library:
	cd crates/broker_c && rt lib
	mkdir -p target/staticlib
	cp crates/broker_c/out/libbroker_c.a $(LIBRARY)

# The trace player: proved, built, and run on its crate's input.
player:
	mkdir -p target
	cd crates/player && rt run <stdin >../../target/player.out
	cmp target/player.out crates/player/stdout

# The runs of the library for C, of the trace player and of broker.rs, the library's limits and faults, its commands as
# bytes, what records traces, its examples, the check on changed words.
runs: library player
	LIBBROKER=$(LIBRARY) CALLS=$(CALLS) ROWS=$(ROWS) PLAYER=$(PLAYER) RECORDS=$(RECORDS) reference/check
	$(run-faults)
	$(run-wire)
	$(run-recording)
	$(run-examples)
	fuzz/run fuzz 1

# The library for C at its limits and one past them, with lists and stores of every wrong shape.
faults: library
	$(run-faults)

# Commands as bytes against fixed bytes, the rules and protobuf.
wire: library
	$(run-wire)

# The trace player against the model of the rules, and what records traces.
trace: library player
	LIBBROKER=$(LIBRARY) PLAYER=$(PLAYER) RECORDS=$(RECORDS) reference/trace
	$(run-recording)

# Rows of calls through broker_calls against the same calls one by one through the other exports.
rows: library
	LIBBROKER=$(LIBRARY) ROWS=$(ROWS) reference/rows

# The library called as a maker would call it.
examples: library
	$(run-examples)

# The time of every call beside a bare pass over the same words and beside broker.rs, of calls in rows beside both and a
# plain counter, of the trace player beside the same calls through the library, and of the calls on bytes beside a plain
# decoder and encoder.
bench: library player
	LIBBROKER=$(LIBRARY) PLAYER=$(PLAYER) reference/bench
	mkdir -p target/wire
	gcc -std=c99 -O2 $(WARNINGS) -Iinclude tests/wire/speed.c tests/wire/plain.c $(LIBRARY) -o target/wire/speed
	target/wire/speed

# The must-fail edits that were refused by form alone, from what the last gate run said: there are none.
edits:
	tests/edits

# The library that is there is installed; it is built first if there is none.
$(LIBRARY):
	$(MAKE) --no-print-directory library

install: $(LIBRARY)
	install -d "$(DESTDIR)$(PREFIX)/include" "$(DESTDIR)$(PREFIX)/lib/pkgconfig"
	install -m 644 include/broker.h include/broker_trace.h "$(DESTDIR)$(PREFIX)/include"
	install -m 644 $(LIBRARY) "$(DESTDIR)$(PREFIX)/lib/libbroker.a"
	sed 's|@PREFIX@|$(PREFIX)|' include/broker.pc.in >"$(DESTDIR)$(PREFIX)/lib/pkgconfig/broker.pc"
	chmod 644 "$(DESTDIR)$(PREFIX)/lib/pkgconfig/broker.pc"

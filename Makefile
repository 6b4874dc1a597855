# `make demo` proves and builds the program, feeds it the session of examples/ and prints its replies; then it prints what is wrong with the libraries of examples/shapes, and runs examples/countdown.dart.
# `make test` is the gate: it proves, tries and runs everything.
# `make bench` proves and builds the programs, and prints how long trees, checks, edits and runs take, by the size of the text, sessions over many files, tests of subtyping, bounds and inference, unions of rows, look-ups and joins of flow models, and what libraries export.
.PHONY: demo test bench

SESSION := $(CURDIR)/examples/session.jsonl
SHAPES := $(CURDIR)/examples/shapes/main.dart
COUNTDOWN := $(CURDIR)/examples/countdown.dart

demo:
	@cd crates/dart_serve && mkdir -p out && { rt run -- serve < $(SESSION) 2> out/demo.log || { cat out/demo.log >&2; exit 1; }; }
	@crates/dart_serve/out/dart_serve check $(SHAPES) || [ $$? -eq 1 ]
	@crates/dart_serve/out/dart_serve run $(COUNTDOWN)

test:
	rt ci

bench:
	@cd crates/dart_serve && mkdir -p out && { rt run -- serve < /dev/null > /dev/null 2> out/bench.log || { cat out/bench.log >&2; exit 1; }; }
	@cd crates/unit_lines && mkdir -p out && { rt run < /dev/null > /dev/null 2> out/bench.log || { cat out/bench.log >&2; exit 1; }; }
	@python3 bench/parse.py
	@python3 bench/units.py
	@python3 bench/check.py
	@python3 bench/edit.py
	@python3 bench/session.py
	@python3 bench/run.py
	@python3 bench/subtypes.py
	@python3 bench/bounds.py
	@python3 bench/rows.py
	@python3 bench/exports.py

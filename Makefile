# make test         proves every crate, runs every program, tries the edits that must be refused, then runs the C example; its last line is 'N passed, 0 failed'
# make run          proves and builds the program silk, and runs it on the sheets of examples/
# make lib          the C library: target/staticlib/libsilk_c.a, declared in include/silk.h
# make example      builds examples/c with it and runs that
# make compare      the library beside the Rust original in SHARED, CASES random calls of each entry and more
# make bench        times of both
# make model        the Python model against the stored answers, the texts of silk and wrong rules
# make documents    whether what the documents name is there, whether each must-fail edit fits its file, whether two crates define one name, and whether README's law is whole
# make definitions  the definitions of rules against the model on ROWS random calls, computed by the checker
.PHONY: test run lib example compare bench compared model documents definitions
CFLAGS = -std=c11 -Wall -Wextra -Wpedantic -Werror
SHARED = ../shared
CASES = 20000
ROWS = 60
SEED = 1
COMPARE = target/cargo/release/compare
SILK = crates/silk/out/silk
LIB = target/staticlib/libsilk_c.a

test:
	@CC='$(CC)' sh tools/test.sh

run:
	@cd crates/silk && rt run <stdin >/dev/null
	@sh tools/run_examples.sh $(SILK)

lib: $(LIB)
$(LIB): crates.txt $(shell find crates -name '*.rt' -o -name '*.antt')
	@cd crates/silk_c_c && rt lib
	@mkdir -p target/staticlib
	@cp crates/silk_c_c/out/libsilk_c_c.a $(LIB)

example: lib
	@$(CC) $(CFLAGS) -I include examples/c/clean.c $(LIB) -o target/clean
	@target/clean

compared: lib
	@python3 compare/reference.py target/reference $(SHARED)
	@cargo build -q --release --offline --manifest-path compare/Cargo.toml --target-dir target/cargo

compare: compared
	@$(COMPARE) check $(CASES)

bench: compared
	@$(COMPARE) bench

model:
	@python3 tools/check_vectors.py
	@python3 tools/check_silk.py
	@python3 tools/mutants.py

documents:
	@python3 tools/check_documents.py

definitions:
	@sh tools/definitions.sh $(ROWS) $(SEED)

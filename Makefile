# `make` lists the targets.

# The originals: a folder that has src/src/half_sample.rs and the others, or a checkout of the
# repository that they are from, which has src/half_sample.rs.
DOCS ?=
# Words for compare: --seed N --valid N --refused N, or --help; for bench --help alone.
ARGS :=
# The crate whose rows bench times, and no others; empty: all rows.
ONLY :=
# The figures that bench holds its rows to.
WANTED := oracle/wanted.txt
# The folder of the static library.
LIBDIR := target/staticlib

LIBRARY := $(LIBDIR)/libhencouch.a
HEADER := include/hencouch.h
BROODLINE := target/bin/broodline
# Where rt leaves them.
BUILT_LIBRARY := crates/hencouch_c/out/libhencouch_c.a
BUILT_PLAY := crates/play_c/out/libplay_c.a
BUILT_BROODLINE := crates/broodline/out/broodline
SOURCES := $(wildcard crates.txt) $(shell find crates -path '*/src/*' -name '*.rt' 2>/dev/null)
ORIGINALS := half_sample.rs quarter_sample.rs fdct.rs inverse_quant.rs quantise.rs scan.rs
# Parts of files that as a whole want others that are not to be had.
CUT_FILES := ivop_encode pvop_encode reconstruct
CUT_ivop_encode := scan_positions forward_scan qfs_to_events FrameView impl:FrameView field_dct_luma \
  EncoderConfig::forced_scan
CUT_pvop_encode := SEARCH_RANGE mv_range search_window_pels sad_full_pel units_per_pel sad_subpel \
  full_pel_window refine_subpel estimate_motion sad_full_pel_block8 sad_subpel_block8 \
  estimate_motion_4mv source_luma_mb intra_activity quantise_inter_block quantise_inter_residual \
  MacroblockResidual macroblock_residual inter_cbp inter_scan
CUT_reconstruct := MACROBLOCK_LUMA_SIDE MACROBLOCK_CHROMA_SIDE InterPredictionMacroblock
# The function that sums a block, and how often psadbw has to be in it: 2 a turn of 8 for 16 rows of
# 16, and 4 for 8 rows of 8.
SEARCH_CODE := full_search::sums::block
PSADBW := 6
COUNT_PSADBW = awk -v code='$(SEARCH_CODE)' -v least=$(PSADBW) -f oracle/psadbw.awk
RUST := rustc --edition 2021 -C opt-level=3 -C codegen-units=1
# $(call crate,FOLDER,LIBDIR): the crate of bindings/rust over a folder's library, as an rlib.
crate = $(RUST) --crate-type rlib --crate-name hencouch -L native=$(2) \
  -o $(1)/libhencouch.rlib bindings/rust/src/lib.rs

# Sets of rows: the crates whose entries they call, and these entries.
ROWS := half_sample quarter_sample prediction fdct levels search coding macroblock broodline
CRATES_half_sample := half_sample
ENTRIES_half_sample := interpolate_block_into
CRATES_quarter_sample := quarter_sample
ENTRIES_quarter_sample := interpolate_block_qpel_into
CRATES_prediction := prediction
ENTRIES_prediction := predict_macroblock predict_macroblock_4mv
CRATES_fdct := fdct
ENTRIES_fdct := forward_dct_8x8
CRATES_levels := quantise scan
ENTRIES_levels := quantise_block forward_scan levels_to_events
CRATES_search := search
ENTRIES_search := estimate_motion estimate_motion_4mv
CRATES_coding := coding
ENTRIES_coding := macroblock_residual quantise_inter_residual
CRATES_macroblock := macroblock
ENTRIES_macroblock := code_macroblock code_predicted_macroblock intra_activity
CRATES_broodline := macroblock
ENTRIES_broodline := code_macroblock
# The set that watches a crate, where it has not the crate's name.
ROWS_OF_quantise := levels
ROWS_OF_scan := levels
ROWS_OF_full_search := search
ROWS_OF_picture := broodline
ROWS_OF_clip := broodline
ROWS_OF_play := broodline

ifeq ($(ONLY),)
TIMED := $(ROWS) all
BENCH_LIBDIR := $(LIBDIR)
BENCH_NEEDS := machine-code $(LIBRARY) $(BROODLINE)
else
TIMED := $(or $(ROWS_OF_$(ONLY)),$(filter $(ONLY),$(ROWS)))
BENCH_LIBDIR := target/only/$(TIMED)
# Outside the checkout, since rt ci wants no other crates in it.
ONLY_REPOSITORY := $(or $(TMPDIR),/tmp)/hencouch-only/$(TIMED)
BENCH_NEEDS := only $(if $(filter broodline,$(TIMED)),$(BROODLINE))
endif

.PHONY: run sample broodline help test staticlib compare bench only machine-code stack call readme-lines named-files originals stored stored-changed replay
.NOTPARALLEL:

help:
	@echo 'make run                   broodline on a comb with two bees: a line a macroblock, in seconds'
	@echo 'make test                  names and layout, then rt ci: the gate'
	@echo 'make rules                 whether what docs/RULES.md and docs/PROMISES.md name is there, and named'
	@echo 'make broodline             the program behind a main of C, as target/broodline'
	@echo 'make staticlib             the static library for C and Rust'
	@echo 'make compare DOCS=FOLDER   every entry and broodline against the original Rust, at random; ends'
	@echo '                           with a table of counts and differences, a row an entry'
	@echo 'make replay                a C program that makes every stored call and holds the library to its answer'
	@echo 'make stored DOCS=FOLDER    asks the original Rust anew and writes the stored calls (docs/STORED.md)'
	@echo 'make stored-changed DOCS=FOLDER   whether the stored calls tell wrong originals from the right ones'
	@echo 'make bench DOCS=FOLDER     the same two, timed side by side; fails where a row is below what'
	@echo '                           oracle/wanted.txt wants of it'
	@echo 'make bench DOCS=FOLDER ONLY=CRATE   the rows that watch one crate, in seconds: half_sample,'
	@echo '                           quarter_sample, fdct, quantise, scan, prediction, full_search, search,'
	@echo '                           coding, macroblock, picture, clip, play or broodline. It builds that'
	@echo '                           crate, what it depends on and its entries, and proves what is unproved'
	@echo 'make machine-code          whether the search sums by the instruction made for it'
	@echo 'make stack                 whether a call takes no more stack than include/hencouch.h says'
	@echo 'make sample                makes the clip of make run anew'
	@echo 'make call                  a C program and a Rust one that call the library and hold it to answers'
	@echo '                           they name; README.md shows their lines, and is held to them'
	@echo 'make bindings              the tests of the Rust crate in bindings/rust, over the library'
	@echo 'make signatures            whether header, crate, source and library have the same entries'
	@echo 'make lint DOCS=FOLDER      whether rustfmt and clippy have nothing to say of the Rust here'
	@echo 'make install PREFIX=FOLDER lib/libhencouch.a, include/hencouch.h and lib/pkgconfig/hencouch.pc in'
	@echo '                           FOLDER (/usr/local); DESTDIR goes before it'
	@echo 'make install-check         a C program and a Rust one built by pkg-config over an install in target/'
	@echo 'make named-files           whether the files of crates that README.md and docs/ name are there'
	@echo 'DOCS=FOLDER: FOLDER has the originals as src/src/half_sample.rs and so on, or is a checkout of'
	@echo 'OxideAV/oxideav-mpeg4video, which has src/half_sample.rs. ARGS="--seed N --valid N --refused N"'
	@echo 'gives compare another seed and other counts; ARGS=--help says more.'

# The program as it was proved, where it was; else as rt try compiles it with checks, which proves
# nothing. (rt try's interpreter, its other way, has too few steps for a search.)
run:
	@mkdir -p target/run
	@if test -x $(BROODLINE); then \
	  $(BROODLINE) < crates/broodline/stdin > target/run/lines; \
	else \
	  (cd crates/broodline && rt try < stdin > ../../target/run/lines 2> ../../target/run/tried) || { cat target/run/tried; exit 1; }; \
	  diff crates/broodline/stdout target/run/lines; \
	fi
	@echo 'column  row  vector (horizontal, vertical)  sum  luma pattern  chroma pattern  events'
	@cat target/run/lines

sample:
	mkdir -p target/run
	$(CC) -std=c99 -Wall -Wextra -O2 -o target/run/comb oracle/comb.c
	target/run/comb > crates/broodline/stdin

# rt ci holds the files to rt fmt's layout too.
test: rules named-files readme-lines
	@bash tools/gate.sh

staticlib:
	@rm -f target/staticlib/libhencouch.a
	@$(MAKE) --no-print-directory target/staticlib/libhencouch.a

target/staticlib/libhencouch.a: $(SOURCES)
	cd crates/hencouch_c && rt lib
	mkdir -p target/staticlib
	cp $(BUILT_LIBRARY) $@

# rt run leaves the program; of an empty clip it prints one line, a refusal.
$(BROODLINE): $(SOURCES)
	cd crates/broodline && rt run < /dev/null
	mkdir -p target/bin
	cp $(BUILT_BROODLINE) $@

# The same program behind a C main.
broodline: $(SOURCES)
	cd crates/play_c && rt lib
	mkdir -p $(LIBDIR)
	cp $(BUILT_PLAY) $(LIBDIR)/libplay.a
	$(CC) -std=c99 -Wall -Wextra -O2 -o target/broodline oracle/broodline.c $(LIBDIR)/libplay.a

# Where the originals are; nothing where they are not.
DOCS_SRC = $(if $(DOCS),$(patsubst %/half_sample.rs,%,$(firstword \
  $(wildcard $(DOCS)/src/src/half_sample.rs $(DOCS)/src/half_sample.rs))))

# The originals, unchanged, beside the programs that name them as modules.
originals:
	$(if $(DOCS),,$(error DOCS is missing: DOCS=FOLDER, where FOLDER has the original Rust as src/src/half_sample.rs and so on, \
	  or is a checkout of OxideAV/oxideav-mpeg4video, which has src/half_sample.rs))
	$(if $(DOCS_SRC),,$(error DOCS=$(DOCS) has neither src/src/half_sample.rs nor src/half_sample.rs))
	$(foreach file,$(ORIGINALS) $(CUT_FILES:%=%.rs),$(if $(wildcard $(DOCS_SRC)/$(file)),,\
	  $(error $(DOCS_SRC)/$(file) is missing)))
	rm -rf target/oracle
	mkdir -p target/oracle
	cp -R oracle/. target/oracle
	cp $(ORIGINALS:%=$(DOCS_SRC)/%) target/oracle
	$(foreach file,$(CUT_FILES),sh oracle/cut.sh $(DOCS_SRC)/$(file).rs $(CUT_$(file)) > target/oracle/$(file)_cut.rs && ) :

compare: originals $(LIBRARY) $(BROODLINE)
	$(call crate,target/oracle,$(LIBDIR))
	$(RUST) --extern hencouch=target/oracle/libhencouch.rlib -o target/oracle/compare target/oracle/compare.rs
	target/oracle/compare --broodline $(BROODLINE) $(ARGS)

# The stored calls, of the originals alone: the library that the program would link is empty.
CALLS := crates/compare/data/calls
STORE := $(RUST) --extern hencouch=libhencouch.rlib -o store stored.rs

stored: originals
	ar rc target/oracle/libhencouch.a
	$(call crate,target/oracle,target/oracle)
	cd target/oracle && $(STORE)
	target/oracle/store $(HEADER) $(CALLS)

stored-changed: originals
	ar rc target/oracle/libhencouch.a
	$(call crate,target/oracle,target/oracle)
	rm -rf target/changed
	cp -R target/oracle target/changed
	cp oracle/stored/changed.txt target/changed
	cd target/changed && sh ../../oracle/stored/changed.sh '$(STORE) -C opt-level=1' $(abspath $(HEADER)) $(abspath $(CALLS))

# Every stored call, made by C through the header.
replay: $(LIBRARY)
	mkdir -p target/call
	$(CC) -std=c99 -Wall -Wextra -O2 -Iinclude -o target/call/replay oracle/replay.c $(LIBRARY)
	target/call/replay $(CALLS)

# A row that is below its wanted figure is measured again, up to three times, before it fails.
bench: originals $(BENCH_NEEDS)
	$(call crate,target/oracle,$(BENCH_LIBDIR))
	$(RUST) --extern hencouch=target/oracle/libhencouch.rlib --check-cfg 'cfg(timed, values(any()))' \
	  $(foreach rows,$(TIMED),--cfg 'timed="$(rows)"') -o target/oracle/bench target/oracle/bench.rs
	target/oracle/bench $(WANTED) $(BROODLINE) $(ARGS)

# A library of the entries that these rows call, in a repository of its own: see only.sh.
only:
	$(if $(TIMED),,$(error ONLY=$(ONLY) has no rows: one of $(ROWS) quantise scan full_search picture clip play))
	sh oracle/only/only.sh $(ONLY_REPOSITORY) '$(CRATES_$(TIMED))' '$(ENTRIES_$(TIMED))'
	cd $(ONLY_REPOSITORY)/crates/hencouch && rt lib
	mkdir -p $(BENCH_LIBDIR)
	cp $(ONLY_REPOSITORY)/crates/hencouch/out/libhencouch.a $(BENCH_LIBDIR)
	$(if $(filter search macroblock broodline,$(TIMED)),@objdump -d $(BENCH_LIBDIR)/libhencouch.a | $(COUNT_PSADBW))

# The sum of a block's differences is fast only while the compiler finds psadbw for it, which a
# small change of the source can undo.
machine-code: $(LIBRARY)
	@objdump -d $(LIBRARY) | $(COUNT_PSADBW)

# How much stack a call takes: measured on a painted one, and by the machine code. Either fails where
# it is more than the header says. memset and memcpy are bound at the start, since binding them within
# a call would take stack too.
STACK_KIB = $(shell sed -n 's/.*at most \([0-9]*\) KiB of stack.*/\1/p' $(HEADER))
stack: $(LIBRARY)
	mkdir -p target/call
	test -n "$(STACK_KIB)"
	$(CC) -std=c99 -Wall -Wextra -O2 -Iinclude -Wl,-z,now -o target/call/stack oracle/stack.c $(LIBRARY)
	target/call/stack $(STACK_KIB)
	@objdump -dr --no-show-raw-insn $(LIBRARY) | awk -v most=$(STACK_KIB) -f oracle/stack.awk

# A C program and a Rust one that call the library and fail where an answer is not the one they name.
call: readme-lines $(LIBRARY)
	mkdir -p target/call
	$(CC) -std=c99 -Wall -Wextra -O2 -Iinclude -o target/call/from_c oracle/call.c $(LIBRARY)
	target/call/from_c
	$(call crate,target/call,$(LIBDIR))
	$(RUST) --extern hencouch=target/call/libhencouch.rlib -o target/call/from_rust bindings/rust/examples/call.rs
	target/call/from_rust

# $(call shown,FILE): the lines of a program between `shown` and `so far`, as README.md has them.
shown = sed -n -e '/^ *\(\/\*\|\/\/\) shown/,/^ *\(\/\*\|\/\/\) so far/{' -e '/^ *\(\/\*\|\/\/\) \(shown\|so far\)/d' -e '$(2)p' -e '}' $(1)
# $(call in_readme,LANGUAGE): the blocks of a language in README.md.
in_readme = sed -n -e '/^```$(1)$$/,/^```$$/{' -e '/^```/d' -e 'p' -e '}' README.md

# README.md shows lines of programs that are compiled and run, and no others, and what broodline prints.
readme-lines:
	@mkdir -p target/call
	@$(call shown,oracle/call.c,s/^    //;) > target/call/shown.c
	@$(call shown,bindings/rust/examples/call.rs) > target/call/shown.rs
	@$(call in_readme,c) > target/call/readme.c
	@$(call in_readme,rust) > target/call/readme.rs
	@diff target/call/shown.c target/call/readme.c || { echo 'README.md has other lines of C than oracle/call.c' >&2; exit 1; }
	@diff target/call/shown.rs target/call/readme.rs || { echo 'README.md has other lines of Rust than bindings/rust/examples/call.rs' >&2; exit 1; }
	@sed -n '/^    $$ make run$$/,/^$$/s/^    \([0-9]\)/\1/p' README.md | diff crates/broodline/stdout - || { echo 'README.md has other lines of broodline than crates/broodline/stdout' >&2; exit 1; }
	@test -s target/call/readme.c -a -s target/call/readme.rs || { echo 'README.md shows no lines of C or Rust' >&2; exit 1; }

.PHONY: bindings signatures lint install install-check

# The crate's tests: its examples in the documentation, its numbers, and the stored calls replayed.
bindings: $(LIBRARY)
	cd bindings/rust && HENCOUCH_LIB_DIR=$(abspath $(LIBDIR)) cargo test --offline --target-dir $(CURDIR)/target/bindings
	cd bindings/rust && HENCOUCH_LIB_DIR=$(abspath $(LIBDIR)) RUSTDOCFLAGS='-D warnings' \
	  cargo doc --offline --no-deps --target-dir $(CURDIR)/target/bindings

# The header, the crate's raw module and the library's source have the same entries, with the same
# arguments; and the library as it was built has these and no others. make bindings has the first too.
signatures: $(LIBRARY)
	cd bindings/rust && HENCOUCH_LIB_DIR=$(abspath $(LIBDIR)) cargo test --offline --quiet --test declared \
	  --target-dir $(CURDIR)/target/bindings
	mkdir -p target/call
	sed -n 's/^uint8_t \(hencouch_[a-z0-9_]*\)(.*/\1/p' $(HEADER) | sort > target/call/declared
	nm -g --defined-only $(LIBRARY) | sed -n 's/.* T \(hencouch_.*\)/\1/p' | sort | diff target/call/declared -

# The Rust of the crate and of oracle/, the stored calls' left out: its form, and no warning of clippy's.
LINTED = clippy-driver --edition 2021 -D warnings --extern hencouch=target/oracle/libhencouch.rlib \
  --emit metadata --check-cfg 'cfg(timed, values(any()))' $(foreach rows,$(ROWS) all,--cfg 'timed="$(rows)"')
lint: originals $(LIBRARY)
	rustfmt --check --edition 2021 --config-path oracle/rustfmt.toml \
	  $(shell find oracle -name '*.rs' -not -path '*stored*' -not -name modules.rs)
	cd bindings/rust && cargo fmt --check
	$(call crate,target/oracle,$(LIBDIR))
	$(LINTED) -o target/oracle/compare.rmeta target/oracle/compare.rs
	$(LINTED) -o target/oracle/bench.rmeta target/oracle/bench.rs
	cd bindings/rust && HENCOUCH_LIB_DIR=$(abspath $(LIBDIR)) cargo clippy --offline --all-targets \
	  --target-dir $(CURDIR)/target/bindings -- -D warnings

# Where make install puts the library, the header and what pkg-config says of them.
PREFIX ?= /usr/local
DESTDIR ?=
VERSION = $(shell sed -n 's/^version = "\(.*\)"/\1/p' bindings/rust/Cargo.toml)
INSTALLED = $(DESTDIR)$(abspath $(PREFIX))

install: $(LIBRARY)
	install -d $(INSTALLED)/lib/pkgconfig $(INSTALLED)/include
	install -m 644 $(LIBRARY) $(INSTALLED)/lib/libhencouch.a
	install -m 644 include/hencouch.h $(INSTALLED)/include/hencouch.h
	sed -e 's|@PREFIX@|$(abspath $(PREFIX))|' -e 's|@VERSION@|$(VERSION)|' bindings/hencouch.pc.in \
	  > $(INSTALLED)/lib/pkgconfig/hencouch.pc

# An install, and a staged one, below target/: the programs of make call, built by what pkg-config
# says of the first and by nothing else.
INSTALL_CHECK := $(CURDIR)/target/installed
ASKED := PKG_CONFIG_LIBDIR=$(INSTALL_CHECK)/there/lib/pkgconfig pkg-config
install-check: $(LIBRARY)
	rm -rf $(INSTALL_CHECK)
	$(MAKE) install PREFIX=$(INSTALL_CHECK)/there DESTDIR=
	test "$$($(ASKED) --modversion hencouch)" = '$(VERSION)'
	$(CC) -std=c99 -Wall -Wextra -O2 -o $(INSTALL_CHECK)/from_c oracle/call.c $$($(ASKED) --cflags --libs hencouch)
	$(INSTALL_CHECK)/from_c
	cd bindings/rust && unset HENCOUCH_LIB_DIR && PKG_CONFIG_LIBDIR=$(INSTALL_CHECK)/there/lib/pkgconfig \
	  cargo run --offline --example call --target-dir $(INSTALL_CHECK)/cargo
	grep -rq '$(INSTALL_CHECK)/there/lib' $(INSTALL_CHECK)/cargo/debug/build/hencouch-*/output
	$(MAKE) install PREFIX=/usr DESTDIR=$(INSTALL_CHECK)/staged
	cd $(INSTALL_CHECK)/staged/usr && test -s lib/libhencouch.a -a -s include/hencouch.h
	grep -qx 'prefix=/usr' $(INSTALL_CHECK)/staged/usr/lib/pkgconfig/hencouch.pc

# The files of crates that README.md and docs/ name by crate and folder have to be there.
named-files:
	@grep -oh '[a-z_]*/\(src\|specs\|proofs\)/[A-Za-z_/]*\.\(rt\|antt\)' README.md docs/*.md | sort -u | \
	  { lost=0; while read -r name; do test -f "crates/$$name" || { echo "there is no crates/$$name" >&2; lost=1; }; done; exit $$lost; }

# Names of docs/RULES.md and docs/PROMISES.md against the tree, and the rules that comments cite.
.PHONY: rules
rules:
	@awk -f oracle/rules.awk Makefile crates.txt README.md docs/*.md $$(find crates oracle bindings include -type f \( \
	  -name '*.antt' -o -name '*.rt' -o -name '*.edit' -o -name '*.rs' -o -name '*.[ch]' -o -name '*.txt' \))

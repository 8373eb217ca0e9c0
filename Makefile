# `make` prints its targets with the words behind each `##`. A file is made where it is missing or older than a source of it.
.PHONY: help test run host demo install uninstall clean
# rt takes the cores that there are, and two of it would write the same files
.NOTPARALLEL:

PREFIX = /usr/local
DESTDIR =
export PREFIX DESTDIR

library = target/staticlib/libtunnel_c.a
host = target/host/whapirohi
programs = target/bin/van_box target/bin/plan_show
rattle = crates.txt $(shell find crates -name out -prune -o -type f -print)
rust = $(shell find rust -name target -prune -o -type f -print)

help:
	@sed -n 's/^\([a-z]*\):.*## /    make \1	/p' Makefile | expand -t 20

test: ## all tests; what an earlier run proved of the same files is not proved again
	@scripts/test

run: $(programs) ## shows the drivers' plan, and runs the box on the sample trace
	@scripts/run

host: $(host) ## builds the static library and the program whapirohi
	@echo "$(library)"
	@echo "$(host)"

demo: $(host) ## two ends in network namespaces of this machine, pings between them, and the counters; as root
	@scripts/demo

install: $(library) $(host) $(programs) ## library, header, programs and manual page to PREFIX (/usr/local), below DESTDIR
	@scripts/install

uninstall: ## removes what install puts there
	@scripts/install --remove

clean: ## removes what was built: target/, rust/target/ and the crates' out/
	rm -rf target rust/target crates/*/out

$(library): $(rattle)
	@scripts/prove tunnel_c_c

$(programs): $(rattle)
	@scripts/prove $(@F)

$(host): $(library) $(rust)
	@env -u WHAPIROHI_LIB cargo build --release --offline --manifest-path rust/Cargo.toml -p whapirohi-box -p whapirohi-host-test
	@install -D "$${CARGO_TARGET_DIR:-rust/target}/release/host_test" target/host/host_test
	@install -D "$${CARGO_TARGET_DIR:-rust/target}/release/whapirohi" $@

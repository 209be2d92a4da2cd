.PHONY: help run serve test quick bench soak peers install uninstall deb

help: ## says what each target does
	@awk -F ':.*## ' '/^[a-z]+:.*## /{printf "make %-9s %s\n", $$1, $$2}' Makefile

run: ## shows a first answer, proves and builds segcached, replays the first script, and talks to a served socket
	@python3 tools/run.py

serve: ## builds segcached and serves on 127.0.0.1:11211
	@bash tools/serve.sh

test: ## the gate: every proof, the wrong bodies that must be refused, the tests, sockets and clients
	@bash tools/gate.sh

quick: ## for daily work: proves what changed since the last run, and runs the rows
	@bash tools/quick.sh

bench: ## compares the packaged segcached with memcached; writes all figures and pictures of docs/PERFORMANCE.md (three hours, two of them for a site)
	@bash tools/bench.sh --write --parts all

soak: ## hostile use of a served segcached, long: about 40 minutes
	@python3 tools/hostile.py --long

peers: ## other people's suites against the proved program: what fails is what the documents say (3 minutes)
	@python3 tools/peers.py

install: ## puts the proved program and what goes with it below PREFIX (/usr/local); DESTDIR goes before
	@python3 tools/prove.py check
	@PREFIX="$(PREFIX)" DESTDIR="$(DESTDIR)" packaging/install.sh put

uninstall: ## takes away what install put there
	@PREFIX="$(PREFIX)" DESTDIR="$(DESTDIR)" packaging/install.sh remove

deb: ## makes a Debian package of the proved program in out/
	@tools/deb.sh

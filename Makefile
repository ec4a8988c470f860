.PHONY: commands deb demo install install-trial refused-memory replay state test try udp uninstall

PREFIX ?= /usr/local
# How many checks the gate makes side by side: one a processor, where each has 4 GB. The toolchain guesses that each needs far more.
LANES ?= $(shell awk -v cores="$$(nproc)" '/^MemTotal/ { most = int($$2 / 4000000); print most < 1 ? 1 : most < cores ? most : cores }' /proc/meminfo)
PROGRAM = crates/radpool/out/radpool

# Runs radpool on the shipped transcript without a proof, and prints what it answered.
try:
	cd crates/radpool && rt try -- replay < ../../examples/requests.txt | diff ../../examples/requests.expected -
	@cat examples/requests.expected
	@echo "The output matches examples/requests.expected. This was a trial run: nothing was proved."

# Proves and builds radpool, runs it on the shipped transcript, and checks the shipped configuration.
demo:
	cd crates/radpool && rt run -- replay < ../../examples/requests.txt
	crates/radpool/out/radpool replay < examples/requests.txt | diff - examples/requests.expected
	install -D -m 600 examples/radpool.toml out/radpool.toml
	crates/radpool/out/radpool check out/radpool.toml
	@echo "The output matches examples/requests.expected. The program is crates/radpool/out/radpool."

# Runs radpool with many command lines, and judges what each prints and its status. It needs Python 3.
commands: demo
	trials/command/run crates/radpool/out/radpool

# Compares what radpool answers to random transcripts with examples/expected. It needs Python 3.11.
replay: demo
	trials/replay/run

# Proves and builds trial_refused_memory, and makes its runs and commands of radpool again and again, each time with another
# allocation refused. It needs Python 3 and cc.
refused-memory: demo
	cd crates/trial_refused_memory && rt run > /dev/null
	trials/refused_memory/run

# Serves over loopback with radpool, and judges what it answers and prints, also where the system refuses calls. It needs Python 3
# and cc.
udp: demo
	trials/udp/run

# Kills radpool with a state again and again beside gateways that go on, and judges what outlives it, what is refused and a full disk. It
# needs Python 3 and sqlite3, and root for file systems of its own, without which these are left out.
state: demo
	trials/state/run

# Proves everything from nothing, tries the wrong bodies, and runs the tests and the programs. The run of radpool is the
# example, for which examples/expected computes the same; the list in docs/CLAUSES.md is the one that docs/definitions makes, and
# docs/INDEX.md names what there is. Then the executables are tried: radpool with many command lines and random transcripts, over
# UDP and killed with a state, trial_refused_memory and commands of radpool with each of their allocations refused in turn, and an
# installation.
test:
	@cmp examples/requests.txt crates/radpool/stdin
	@cmp examples/requests.expected crates/radpool/stdout
	@examples/expected < examples/requests.txt | cmp - examples/requests.expected
	@docs/definitions --check
	@RT_JOBS=$(LANES) rt ci
	@$(MAKE) --no-print-directory -j $(LANES) tried/command tried/replay tried/refused_memory tried/install
	@trials/udp/run
	@trials/state/run

# Those trials that don't measure time run side by side.
tried/%:
	@trials/$*/run > /dev/null

# Installs the executable of `make demo`, its man pages, two units for systemd, room for receive buffers, examples of configurations and
# five documents, below PREFIX, which the installed texts name. A link to what isn't installed becomes text. Nothing in /etc is touched.
to = $(DESTDIR)$(PREFIX)
links = s,\]\((docs/|\.\./)*((\#|examples/rad|(README|SECURITY|OPERATING|FORMATS|TRYING)\.md)[^)]*)\),]<\2>,g; \
	s,\[([^]]*)\]\([^)]*\),\1,g; s,\]<([^>]*)>,](\1),g
text = sed -E '$(if $(filter %.md,$(1)),$(links); )s,/usr/local,$(PREFIX),g' $(1) | install -D -m 644 /dev/stdin "$(to)/$(2)"
install:
	@test -x "$(PROGRAM)" || { echo "$(PROGRAM) doesn't exist: run 'make demo' first." >&2; exit 1; }
	install -D -m 755 "$(PROGRAM)" "$(to)/bin/radpool"
	$(call text,man/radpool.8,share/man/man8/radpool.8)
	$(call text,man/radpool.toml.5,share/man/man5/radpool.toml.5)
	$(call text,examples/radpool.service,lib/systemd/system/radpool.service)
	$(call text,examples/radpool.socket,lib/systemd/system/radpool.socket)
	$(call text,packaging/sysctl.conf,lib/sysctl.d/10-radpool.conf)
	$(call text,examples/radpool.toml,share/doc/radpool/examples/radpool.toml)
	$(call text,examples/radpool.logrotate,share/doc/radpool/examples/radpool.logrotate)
	$(call text,examples/radsecproxy.conf,share/doc/radpool/examples/radsecproxy.conf)
	$(call text,README.md,share/doc/radpool/README.md)
	$(call text,docs/OPERATING.md,share/doc/radpool/OPERATING.md)
	$(call text,docs/FORMATS.md,share/doc/radpool/FORMATS.md)
	$(call text,docs/TRYING.md,share/doc/radpool/TRYING.md)
	$(call text,SECURITY.md,share/doc/radpool/SECURITY.md)

# Removes what `install` installed, and the folder that only radpool uses.
installed = bin/radpool share/man/man8/radpool.8 share/man/man5/radpool.toml.5 lib/systemd/system/radpool.service \
	lib/systemd/system/radpool.socket lib/sysctl.d/10-radpool.conf \
	$(addprefix share/doc/radpool/examples/,radpool.toml radpool.logrotate radsecproxy.conf) \
	$(addprefix share/doc/radpool/,README.md OPERATING.md FORMATS.md TRYING.md SECURITY.md)
uninstall:
	rm -f $(foreach file,$(installed),"$(to)/$(file)")
	@test ! -d "$(to)/share/doc/radpool" || find "$(to)/share/doc/radpool" -type d -empty -delete

# Makes a Debian package of what `install` installs, in out/.
deb:
	packaging/deb "$(PROGRAM)"

# Installs radpool into a folder and, for root where dpkg is, as a Debian package, judges what is there, and removes it again. It needs
# Python 3.
install-trial:
	trials/install/run "$(PROGRAM)"

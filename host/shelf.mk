# Refits a shelf of PMF files: make -f host/shelf.mk -j 4 RUNS=runs LISTINGS=listings FIT=target/bin/fit
# One listing a file, in a tree like that of RUNS; only what changed is fitted anew. The refused ones
# are in LISTINGS/refused.txt, one a line with its number. A listing is there whole or not at all: where
# a fit fails, what was there before is gone, and make fails. A listing whose file is gone stays, and is
# not counted. File names have no blanks.

RUNS ?= runs
LISTINGS ?= listings
FIT ?= target/bin/fit
refit := $(dir $(lastword $(MAKEFILE_LIST)))refit

files := $(shell find $(RUNS) -name '*.pmf')
listings := $(patsubst $(RUNS)/%.pmf,$(LISTINGS)/%.listing,$(files))
$(if $(files),,$(error no PMF file below $(RUNS)))

.PHONY: all program
.DELETE_ON_ERROR:
all: $(LISTINGS)/refused.txt

# made anew each time, since `program` is always newer: a file may be gone
$(LISTINGS)/refused.txt: $(listings) program
	@find $(RUNS) -name '*.pmf' | sed 's|^$(RUNS)/|$(LISTINGS)/|; s|pmf$$|listing|' | xargs grep -Hx 'no [0-9]*' | sort >$@
	@echo "$(words $(listings)) listings, $$(wc -l <$@) of them refusals"

# the program is a prerequisite, so that a new one refits everything
$(listings): $(LISTINGS)/%.listing: $(RUNS)/%.pmf $(wildcard $(firstword $(FIT)))
	@rm -f $(LISTINGS)/refused.txt
	@FIT='$(FIT)' sh $(refit) $< $@

# said also where no listing is to be made
program:
	@command -v '$(firstword $(FIT))' >/dev/null || { echo "there is no program $(firstword $(FIT))" >&2; exit 1; }

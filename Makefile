# Doors for hands. What each command costs: docs/TESTING.md.
#
#   make check CRATE=path_text                       proves a crate, over what earlier checks kept
#   make gate                                        passes all proofs, edits, tests and cases (rt ci)
#   make cases                                       names each file of cases in args and stdout
#   make live                                        looks at the built program hns
#   make try FILE=conversation_cases/data/paths_moments.txt  runs one file of cases in a minute, and proves nothing
#   make bench                                       measures the built program
#   make fmt                                         lays out all files

CASES = $(notdir $(basename $(FILE)))
RUNNER = $(if $(findstring text_cases,$(FILE)),text_cases,conversation_cases)

.PHONY: check gate cases live try bench fmt

check:
	cd crates/$(CRATE) && rt check

gate:
	rt ci

cases:
	tests/cases --write
	git --no-pager diff --stat -- crates/text_cases/args crates/text_cases/stdout crates/conversation_cases/args crates/conversation_cases/stdout

live:
	tests/run

try:
	cd crates/$(RUNNER) && rt try --seconds 120 --data $(CASES).txt=data/$(CASES).txt -- $(CASES)

bench:
	bench/pipe
	bench/paths
	bench/subtrees
	bench/allocations
	bench/locks
	bench/files
	bench/serve

fmt:
	for crate in crates/*/src; do (cd $$crate/.. && rt fmt); done

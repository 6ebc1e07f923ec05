# The habits of this repository, thin over the toolchain.
.PHONY: run test firmware size speed check dev edits format

# The main job: prove the bench and all below it, and answer the worked messages.
run:
	samples/run samples/worked.txt

# The gate, as it runs before a change lands.
test:
	.ci/run

# The C programs alone: every case, conversations, noise.
firmware:
	firmware/test

# Code and constants of each archive, and how deep each call goes, in octets.
size:
	firmware/size

# How long each call takes, and the programs of a trace with a file of 10 MB.
speed:
	speed/run
	speed/traces

# make check CRATE=elements: prove one crate and those below it.
check:
	machine/in $(CRATE) rt check

# make dev CRATE=elements: the edit loop, with the goals at holes; no verdict.
dev:
	machine/in $(CRATE) rt check --allow-holes

# make edits CRATE=elements: its wrong programs alone, each refused by its own function.
edits:
	edits/one $(CRATE)

format:
	for crate in crates/*; do machine/in $${crate##*/} rt fmt || exit 1; done

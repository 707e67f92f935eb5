# The product's commands.
.PHONY: demo test library spool samples map

# The main job on the bundled water sheet.
demo:
	@tools/demo

# Everything that is proved and tested; what the kit proved of the same files before on this machine it keeps.
test:
	@tools/gate

# target/staticlib/libhost.a, the library to link.
library:
	@tools/library

# target/spool, the host in C, for this machine.
spool:
	@tools/spool

# Writes samples/ anew.
samples: target/make-samples
	@target/make-samples samples

# What each byte of the water sheet is.
map: target/make-samples
	@target/make-samples map

target/make-samples: samples/make.c
	@mkdir -p target
	@$(CC) -std=c11 -O1 -Wall -Wextra -Werror $< -o $@

# The commands of this repository. Each is a script of tools/ or tests/, which says more of itself.
.PHONY: build demo sandbox serve pages check test fuzz bench release clean help

build:
	@tools/build

demo:
	@exec tools/demo $(if $(FILE),"$(FILE)")

sandbox:
	@exec tools/sandbox

serve:
	@exec tools/serve

pages:
	@exec tools/pages

check:
	@exec tools/check

test:
	@exec tests/run

fuzz:
	@exec tools/fuzz

bench:
	@exec tools/bench

release:
	@exec tools/release

clean:
	rm -rf build dist crates/*/out

help:
	@tools/help

.DEFAULT:
	@tools/help $@

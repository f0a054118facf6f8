# make demo       proves and builds the program into ./gract, builds an index of the examples, and asks it
# make gract      builds it alone, and says its sha256
# make try        asks the examples' questions at once, of a program that nothing has proved
# make test       the gate: every proof, edit, test and program, then the repository's own checks
# make dist       packs ./gract with all that its users need into an archive, and says its sha256
# make wheel      packs ./gract and the package for Python into a wheel, and says its sha256
# make install    puts ./gract, its manual page and its completion for bash under PREFIX (/usr/local), within DESTDIR
# make uninstall  takes away what install put there
# make clean      takes away what the others made, but what is installed

SOURCES := crates.txt $(shell find crates -name out -prune -o -type f \( -name '*.rt' -o -name '*.antt' \) -print)

.PHONY: demo try test dist wheel install uninstall clean

gract: $(SOURCES)
	@echo 'Proving and building gract. The first time takes some twenty minutes.'
	@scripts/build

demo: gract
	@scripts/demo

try:
	@scripts/try

test:
	@echo 'Proving and trying all of gract. From nothing it takes some 45 minutes on four processors that do nothing else, and 70 on two.'
	@.ci/run

dist:
	@scripts/make_archive

wheel:
	@scripts/make_wheel

install:
	@scripts/install

uninstall:
	@scripts/uninstall

clean:
	rm -rf gract gract-*.tar.gz gract-*.whl storms.* crates/*/out

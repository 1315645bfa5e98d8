# make run      proves and builds the report program, and prints the report of samples/w.trial; tells each crate as it is proved, on standard error
# make sheet    the same for the program adjusted: the buyers' sheet of samples/w.trial
# make balanced the same for the program balanced: the report of the balanced table of samples/saffron.trial
# make lesson   writes target/lesson/index.html, the page to teach with, from the answers of the proved programs to the trials in
#               samples/ and to all that the coins might have made of them (tools/lesson.py)
# make test     the one test command: `rt ci`, which proves every crate of crates.txt, tries the must-fail edits
#               and runs the programs; then, on what it has proved, the Python tests: the reference implementation, the tools,
#               the C calls and the files of the test program
# make lesson-test  tests that page in a real browser, which it installs as Debian's packages chromium and chromium-driver where
#               they are missing; not part of make test
# make vectors  writes the files of the test program again: its cases, and the answers as the reference has them
# make host     builds the sample host in C: `target/host samples/w.trial` then prints the verdicts of a trial file
# make bench    compares the library with the plain C of tests/baseline, gcc -O3 (docs/BENCHMARKS.md).
#               The functions of both start at multiples of 64 bytes, so that an edit elsewhere moves no time
.PHONY: run sheet balanced lesson lesson-test test vectors host bench
SHELL = bash
# for any x86-64: the kit compiles for x86-64-v2 otherwise
any = --cpu=x86-64
# proves and builds a program, copies it to target/bin, and tells each crate as it is proved
prove = mkdir -p target/bin && set -o pipefail && { (cd crates/$(1) && rt run $(1) $(any) < /dev/null) 2>&1 | tee target/run.log | sed -nu '/^crate /{ s/^crate \([^:]*\):.*/\1 proved/; h }; /^logic=proved/{ g; p }' >&2 && cp crates/$(1)/out/$(1) target/bin/; } || { cat target/run.log >&2; exit 1; }
# proves the static library of a library's calls for C, and copies it to target/staticlib under the library's name
archive = mkdir -p target/staticlib && (cd crates/$(1)_c && rt lib $(1)_c $(any)) && cp crates/$(1)_c/out/lib$(1)_c.a target/staticlib/lib$(1).a

run:
	@$(call prove,report)
	@target/bin/report < samples/w.trial

sheet:
	@$(call prove,adjusted)
	@target/bin/adjusted < samples/w.trial

balanced:
	@$(call prove,balanced)
	@target/bin/balanced < samples/saffron.trial

lesson:
	@$(call prove,report)
	@$(call prove,vectors)
	@python3 tools/lesson.py -o target/lesson/index.html

lesson-test: lesson
	@tests/browser/install.sh
	@python3 tests/browser/lesson.py

test:
	@tests/run.sh

vectors:
	@python3 tests/make_vectors.py

host:
	@$(call archive,host)
	@gcc -Wall -Wextra -Werror -O2 -Iinclude samples/host.c target/staticlib/libhost.a -o target/host

bench:
	@$(call archive,host)
	@$(call archive,benchcalls)
	@for l in host benchcalls; do objcopy --wildcard --set-section-alignment '.text.*=64' target/staticlib/lib$$l.a target/$$l-aligned.a || exit 1; done
	@gcc -std=c11 -Wall -Wextra -Werror -O3 -falign-functions=64 -Wl,-z,now -Iinclude -Itests/baseline tests/baseline/*.c tests/bench/*.c target/host-aligned.a target/benchcalls-aligned.a -o target/bench
	@target/bench

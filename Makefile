# `make run` proves and builds what it shows, and so does `make example`, a C program; `make test` is the whole gate; `make bench` measures,
# with OLD=FILE also against an older build of the library, that libkindlesap.a.
.PHONY: run example test bench clean

run:
	tests/build-program listing
	@echo
	@echo "A rule book, examples/book.txt:"
	@echo
	@cat examples/book.txt
	@echo
	@echo "Its tree, by the proved program: accepted NODES TOKENS, then for each node SLOT SYMBOL PRODUCTION PARENT TAG."
	@echo "Symbols: 1 allow, 2 host, 3 comma, 4 except, 5 semicolon; 6 Book, 7 Rule, 8 List, 9 Rest, 10 Bar."
	@echo
	@examples/tokens examples/book.txt | tests/run-built target/bin/listing
	@echo
	@echo "The same of 'allow host 7', which ends too soon: refused, reply 9 at token 2, expected the symbols 3, 4 or 5 (bits of 56)."
	@echo
	@echo 'allow host 7' | examples/tokens | tests/run-built target/bin/listing

example:
	tests/build-library
	@mkdir -p target/c
	@tests/build-c target/c/edits examples/edits.c
	@echo
	@tests/run-built target/c/edits

test:
	@tests/gate

bench:
	@tests/bench

clean:
	rm -rf target

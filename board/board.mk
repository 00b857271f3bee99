# The library as WebAssembly, and the drawing board over it.
.PHONY: wasm wasm-test board board-test

WASM = target/wasm/bahrufaz.wasm
wasm: $(WASM)

$(WASM): lib/wasm.sh lib/module.sh include/bahrufaz.h target/staticlib/libbahrufaz.a
	lib/wasm.sh

# the text forms and the calls in node, then every call against the second reading, as for the other builds
wasm-test: wasm
	tests/wasm.sh $(CALLS)

# the page for a static server: target/board
board: target/board/index.html

target/board/index.html: $(WASM) $(wildcard board/* js/*.mjs) $(shell find examples -name '*.feed' -o -name '*.pat')
	node board/assemble.mjs $(WASM) target/board

# the page in a browser; where there is none and none can be had, this says so
board-test: wasm
	tests/board.sh

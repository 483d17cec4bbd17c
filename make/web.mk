# For WebAssembly: the library with vectors and 64-bit memory, without either, and the program. The compiler is the
# kit's, and so is its linker; the memory's addresses are cut to 32 bits by Debian's binaryen.
WEB = out/web
WEB_OBJECTS = out/objects/web
WEB_FILES = $(wildcard web/*.mjs web/*.js web/*.ts web/*.html web/*.css web/*.svg)
WASM_CLANG = $(need_kit)$(dir $(shell rt doc))toolchain/bin/clang
WASM_CC = $(WASM_CLANG) --target=wasm64-unknown-unknown --no-default-config -O2 -ffreestanding -fno-builtin \
    -mbulk-memory -mmutable-globals -Wall -Wextra
WASM_LD = $(WEB_OBJECTS)/wasm-ld -m wasm64 --no-entry --stack-first --strip-all
WASM_CALLS = -z stack-size=1048576 --max-memory=4294967296 $(addprefix --export=,$(CALLS) tmchan_alloc tmchan_free)
LOWER = wasm-opt -Os --enable-memory64 --enable-bulk-memory --enable-sign-ext --enable-mutable-globals \
    --enable-nontrapping-float-to-int

# Proofs take long: what is needed after them is looked for before.
.PHONY: web-tools
web-tools:
	@$(need_kit)$(call need,wasm-opt,binaryen):

web: web-tools $(addprefix $(WEB)/,tmchan.wasm tmchan32.wasm program.wasm layout.mjs $(notdir $(WEB_FILES)))

$(WEB) $(WEB_OBJECTS):
	mkdir -p $@

$(WEB_OBJECTS)/%-vectors.o: out/objects/%-v2.o.bc web/compile | $(WEB_OBJECTS)
	web/compile $(basename $<) vectors $@
$(WEB_OBJECTS)/%-plain.o: out/objects/%-plain.o.bc web/compile | $(WEB_OBJECTS)
	web/compile $(basename $<) plain $@
$(WEB_OBJECTS)/%.o: web/%.c | $(WEB_OBJECTS)
	$(WASM_CC) -c -o $@ $<
$(WEB_OBJECTS)/wasm-ld: | $(WEB_OBJECTS)
	ln -sfn $(WASM_CLANG) $@

$(WEB_OBJECTS)/library-%.wasm: $(WEB_OBJECTS)/library-%.o $(WEB_OBJECTS)/heap.o $(WEB_OBJECTS)/wasm-ld
	$(WASM_LD) $(WASM_CALLS) -o $@ $(filter %.o,$^)
$(WEB)/tmchan.wasm: $(WEB_OBJECTS)/library-vectors.wasm | $(WEB)
	install -m 644 $< $@
$(WEB)/tmchan32.wasm: $(WEB_OBJECTS)/library-plain.wasm | $(WEB)
	$(call need,wasm-opt,binaryen)$(LOWER) --memory64-lowering $< -o $@
$(WEB)/program.wasm: $(addprefix $(WEB_OBJECTS)/,program-vectors.o host.o heap.o wasm-ld) web/table32 | $(WEB)
	$(WASM_LD) -z stack-size=4194304 --export=main -o $(WEB_OBJECTS)/program.wasm $(filter %.o,$^)
	web/table32 $(WEB_OBJECTS)/program.wasm $@

$(WEB)/layout.mjs: include/tmchan.h web/layout | $(WEB)
	web/layout <$< >$@
$(WEB)/%: web/% | $(WEB)
	cp $< $@

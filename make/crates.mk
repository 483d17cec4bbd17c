# The proved build: the crates, as the kit compiles them, with the C of platform/.

BUILT = proved, and compiled by the kit

# How many processes prove side by side; two runs of `rt` do not work beside each other.
JOBS ?= 2
.NOTPARALLEL:

# Folders too, so that what is taken away is seen.
SOURCES := crates.txt $(shell find crates/*/src crates/*/specs crates/*/proofs)
EACH = $(if $(CPU)$(filter-out x86_64,$(PROCESSOR)),one,v2 v3)
CPU_one = $(CPU)
CPU_v2 = x86-64-v2
CPU_v3 = x86-64-v3
CPU_plain = x86-64

# The rows of the tests of the whole program
rows: $(OUT)/tm_rows

# Has what a crate stands on proved and built, and reads the crate. It is as old as the beginning, so that what is
# edited meanwhile is newer. (After the gate all is built, and not each kit's rt takes that up.) Proofs take long: what
# is needed after them is looked for before.
RT_BELOW ?= rt check --jobs $(JOBS) --only ''
out/%.below: $(SOURCES)
	$(need_kit)$(need_cc)$(need_binutils)mkdir -p out
	touch $@.begun
	cd crates/$* && $(RT_BELOW)
	mv $@.begun $@

# Each object, and beside it the module of LLVM of which it was compiled
compiled = $(need_kit)tools/compile --jobs $(JOBS) $1 $(TARGET) '$(CPU_$*)' $(OBJECTS)/$2-$*.o
$(OBJECTS)/library-%.o $(OBJECTS)/library-%.o.bc: out/tmchan_c.below | $(OBJECTS)
	$(call compiled,tmchan_c,library)
$(OBJECTS)/program-%.o $(OBJECTS)/program-%.o.bc: out/tmchan.below | $(OBJECTS)
	$(call compiled,tmchan,program)
$(OBJECTS)/rows-%.o: out/tm_rows.below | $(OBJECTS)
	$(call compiled,tm_rows,rows)

# The library. The calls of CHOSEN are there in two builds, and choose_library.c between these.
CHOSEN := $(shell sed -nE 's/^(CHOOSE|OPEN).(tmchan_\w+).*/\2/p' platform/choose_library.c)
HEAP = rattle_alloc rattle_realloc rattle_dealloc
named = $(foreach it,$(CHOSEN) $(HEAP),--redefine-sym $(it)=$(it)_$1)

$(OBJECTS)/named-v2.o: $(OBJECTS)/library-v2.o
	$(OBJCOPY) $(call named,v2) $< $@
# Of the build for v3 the chosen calls alone, and what they need
$(OBJECTS)/named-v3.o: $(OBJECTS)/library-v3.o
	$(OBJCOPY) $(call kept,$(CHOSEN)) $< $@.all
	$(LD) -r --gc-sections $(addprefix -u ,$(CHOSEN)) -o $@.chosen $@.all
	$(OBJCOPY) $(call named,v3) $@.chosen $@
	rm $@.all $@.chosen

LIBRARY_one = library-one
LIBRARY_v2 = named-v2
LIBRARY_v3 = named-v3 choose_library processor
LIBRARY = $(foreach it,$(EACH),$(LIBRARY_$(it))) heap

# The program, and that of the rows of tests: their main has another name, and what they call of the C library for
# streams has that of platform/, where C's main stands.
renamed = $(OBJCOPY) --redefine-sym main=$1 $(foreach it,read write _exit,--redefine-sym $(it)=platform_$(it:_%=%)) $< $@
$(OBJECTS)/main-%.o: $(OBJECTS)/program-%.o
	$(call renamed,tmchan_main$(patsubst _one,,_$*))
$(OBJECTS)/main-rows.o: $(OBJECTS)/rows-one.o
	$(call renamed,tmchan_main)

PROGRAM = $(addprefix main-,$(EACH)) $(if $(filter v3,$(EACH)),choose_program processor) $(PLATFORM)

$(OUT)/tm_rows: $(call objects,main-rows $(PLATFORM))
	$(LINK) -pie -pthread -o $@ $^

# C of the modules for processors with the vectors of x86-64-v2, and with none
c: $(addsuffix .bc,$(call objects,program-v2 library-v2 library-plain))
	$(need_kit)tools/make-c

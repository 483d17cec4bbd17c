# The build from c/: C that was made of the proved code, for any processor and compiler.

BUILT = compiled from the proved code, not proved
PROGRAM = program $(PLATFORM)
LIBRARY = library heap

# On x86-64 what the proved build needs too, x86-64-v2, by words that old compilers know
CHOSEN_x86_64 = $(if $(CPU),-march=$(CPU),-msse4.2 -mpopcnt)
CHOSEN = $(or $(CHOSEN_$(PROCESSOR)),$(addprefix -mcpu=,$(CPU)))
$(OBJECTS)/%.o: c/%.c $(wildcard c/*.h) include/tmchan.h | $(OBJECTS)
	$(COMPILE) $(CHOSEN) -c -o $@ $<

# What needs the kit; C that is missing does too.
rows web c:
	$(need_kit)
c/%.c:
	$(need_kit)

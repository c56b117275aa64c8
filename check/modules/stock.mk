# A Makefile as those of IceStorm's examples: it knows the stock tools' names and calls, and of this project the rule for iceverify alone.
# check/installed.py runs it in a folder with the files of examples/player_1k.
PROJ = player
PIN_DEF = $(PROJ).pcf
DEVICE = hx1k
PACKAGE = tq144

all: $(PROJ).bin $(PROJ).ex $(PROJ)_chip.v $(PROJ)_loaded.bin $(PROJ).stat

%.json: %.v
	yosys -q -p 'synth_ice40 -top $(PROJ) -json $@' $<

%.asc: $(PIN_DEF) %.json
	nextpnr-ice40 -q --$(DEVICE) --package $(PACKAGE) --seed 1 --freq 12 --json $*.json --pcf $(PIN_DEF) --asc $@

%.bin: %.asc
	icepack $< $@

%.ex: %.asc
	icebox_explain $< >$@

%_chip.v: %.asc
	icebox_vlog $(VLOG_FLAGS) $< >$@

%_loaded.asc: %.asc
	icebram random.hex steps.hex <$< >$@

%.stat: %.bin
	iceunpack $< | icebox_stat >$@

# the one rule that is this project's
verify: $(PROJ).json $(PROJ).asc $(PROJ).bin
	iceverify -p $(PIN_DEF) $^

clean:
	rm -f $(PROJ).json $(PROJ).asc $(PROJ).bin $(PROJ).ex $(PROJ)_chip.v $(PROJ)_loaded.asc $(PROJ)_loaded.bin $(PROJ).stat

.SECONDARY:
.PHONY: all verify clean

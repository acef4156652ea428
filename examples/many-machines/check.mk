# Checks one long log by several processes at once, for `make -j`: each makes all steps, and judges every so many blocks of 1,000; all together
# say what one check says. FOLDER keeps the lines of parts that have ended, so a run that broke off goes on; the last line is `verified N`, or
# the line of `celdrinn check` where the log is refused, and then make ends with 2.
# With HINTED the parts write the log with hints, and one check of what is joined decides.
# With PROOF in place of OUT and LOG it is a `disprove` in parts: the last line is `false N`, and make ends with 0. BINARY=yes reads a binary proof.
# Usage: make -s -f examples/many-machines/check.mk -j4 IN=f.qdimacs OUT=g.qdimacs LOG=f.qrat [PARTS=4] [FOLDER=parts] [HINTED=f.hinted]
#        make -s -f examples/many-machines/check.mk -j4 IN=f.cnf PROOF=f.drat [BINARY=yes] [PARTS=4] [FOLDER=parts]
PARTS = 4
FOLDER = parts
CELDRINN ?= celdrinn
ifneq ($(findstring /,$(CELDRINN)),)
override CELDRINN := $(abspath $(CELDRINN))
endif
here := $(dir $(lastword $(MAKEFILE_LIST)))
export IN OUT LOG PROOF BINARY PARTS FOLDER HINTED CELDRINN
parts := $(shell seq $(PARTS))

join: $(parts:%=part-%)
	@'$(here)parts.sh' join || [ $$? -eq 20 ]

# what a part says is judged when all are joined
$(parts:%=part-%): part-%: begin
	@'$(here)parts.sh' run $* || true

begin:
	@'$(here)parts.sh' begin

.PHONY: join begin $(parts:%=part-%)

# Simplifies and checks many formulas, as many at a time as -j says: F.qdimacs gives F.out, F.qrat, F.line (what simplify said) and
# F.checked (what check said). What is done already is not done again, unless OPTIONS are other ones. A formula that is refused stops only
# itself under -k. Names may have blanks, colons and whatever else a file's name may have, but no line end.
# Usage: make -f examples/many.mk -j4 -k [FOLDER=folder] [OPTIONS=--grow=16]
quote := '
FOLDER = .
OPTIONS = --grow=16
CELDRINN = celdrinn
ifneq ($(findstring /,$(CELDRINN)),)
override CELDRINN := $(abspath $(CELDRINN))
endif
export FOLDER OPTIONS CELDRINN

ifeq ($(shell command -v '$(subst $(quote),'\$(quote)',$(CELDRINN))'),)
$(error '$(CELDRINN)' is not on the PATH: CELDRINN=.. names the program)
endif

# make can't name all files, so a formula is the number of its place in the folder, and the shell finds it.
hash := \#
count := $(shell cd '$(subst $(quote),'\$(quote)',$(FOLDER))' && set -- *.qdimacs && [ -e "$$1" ] && seq $$$(hash))

# 10 and 20 say that the formula is true or false, and 2 that a budget was spent: the files are whole
define work
cd "$$FOLDER" && set -- *.qdimacs && shift $$(( $* - 1 )) && f=./$${1%.qdimacs} && \
{ [ "$$f.checked" -nt "$$f.qdimacs" ] && [ "$$(cat "$$f.options" 2>/dev/null)" = "$$OPTIONS" ] && exit 0; \
rm -f "$$f.checked"; "$$CELDRINN" simplify "$$f.qdimacs" "$$f.out" "$$f.qrat" --force $$OPTIONS >"$$f.line.new"; \
case $$? in 0 | 2 | 10 | 20) ;; *) echo "$$f.qdimacs: $$(cat "$$f.line.new")"; rm -f "$$f.line.new"; exit 1 ;; esac; \
mv "$$f.line.new" "$$f.line" && echo "$$OPTIONS" >"$$f.options" && \
"$$CELDRINN" check "$$f.qdimacs" "$$f.out" "$$f.qrat" >"$$f.checked.new" && mv "$$f.checked.new" "$$f.checked" || \
{ echo "$$f.qdimacs: $$(cat "$$f.checked.new")"; rm -f "$$f.checked.new"; exit 1; }; }
endef

all: $(count:%=formula-%)

$(count:%=formula-%): formula-%:
	@$(work)

.PHONY: all $(count:%=formula-%)

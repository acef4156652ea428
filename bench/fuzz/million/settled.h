/* Whether a formula is settled: no target of a rule applies (docs/THEORY.md, "Rules of simplification"). */
#pragma once
#include "formula.h"

bool is_swept(const Formula &formula);
/* a rule that applies to a swept formula of at most 64 variables; nullptr: none */
const char *target_of(const Formula &formula, int64_t grow, int64_t expand);

/* Circuits that are carried back over a trail, as truth tables: what `rebuild` and `refute` have to give under every assignment
 * (docs/THEORY.md, "Skolem functions come back", "Herbrand functions come back"). */
#pragma once
#include "judge.h"
#include "tables.h"

/* whether no fresh variable has the number of another one; only then a number says which variable is meant */
bool has_one_role_each(const Formula &input, const std::vector<Entry> &entries);
/* `values` has a table for each input and each circuit of OUT; what comes back are those of the circuits of IN, beside the inputs */
Values carried_back(Values values, const std::vector<Entry> &undo, size_t variables);
/* `inputs` says which variables are inputs, by their places in the tables */
Values carried_forth(Values values, const std::map<int, size_t> &inputs, const std::vector<Entry> &reversals, size_t variables);

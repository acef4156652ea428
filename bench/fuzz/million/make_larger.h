/* Formulas of shapes that chance alone hardly ever gives to those of eight variables. */
#pragma once
#include "chance.h"
#include "formula.h"

Formula larger_formula(Chance &chance);    /* clauses are left when no rule applies */
Formula crowded_formula(Chance &chance);   /* nearly all clauses hold one literal */
Formula following_formula(Chance &chance); /* proofs of it may join lines that hold both signs of a variable */
/* under numbers near which the program's tables by number change their form, or near the greatest there is */
Formula renumbered(Chance &chance, Formula formula);

/* Formulas: the reader with its refusals, the canonical text and the measure, as docs/FORMATS.md and docs/THEORY.md have them. */
#pragma once
#include "text.h"

constexpr int64_t MOST_VARIABLES = 16777215, MOST_CLAUSES = 33554432;

struct Bound {
    char quantifier; /* 'e' or 'a' */
    int variable;
    bool operator==(const Bound &other) const { return quantifier == other.quantifier && variable == other.variable; }
};
using Clause = std::vector<int>; /* in literal order, each literal once */
struct Formula {
    std::vector<Bound> prefix;
    std::vector<Clause> matrix;
};

bool comes_before(int literal, int other); /* by variable, the negative one first */
Clause clause_of(std::vector<int> literals);
bool holds(const Clause &clause, int literal);
bool has_empty_clause(const Formula &formula);

Formula read_formula(View text); /* throws Refused */
Bytes canonical(const Formula &formula);
/* the numbers of the longest runs of one quantifier, by places of the prefix */
std::vector<int> block_numbers(const std::vector<Bound> &prefix);
std::vector<int> used_variables(const Formula &formula); /* those that stand in clauses, ascending */
int64_t measure(const Formula &formula, int64_t grow, int64_t expand);

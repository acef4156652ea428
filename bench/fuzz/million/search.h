/* The searches that have an exact answer: the validator's, the solver's number of decisions, and models of clauses. */
#pragma once
#include "circuits.h"

/* docs/THEORY.md, "Searches and miters": inputs get values in their order, 0 first; a node at which a clause is false ends it */
struct Tried {
    bool is_hit = false;
    std::vector<int> counter; /* the universals' values at the first node that is hit */
    uint64_t branches = 0;
};
Tried try_inputs(const Formula &formula, const Circuits &circuits);

/* variables get values in the order of the prefix, 0 first */
struct Decided {
    bool is_won = false, is_known = true; /* is_known: there were not too many decisions */
    uint64_t decisions = 0;
};
Decided decide(const Formula &formula);

/* whether clauses have a model in which these literals are true */
bool has_model(const std::vector<Clause> &clauses, const std::vector<int> &literals);

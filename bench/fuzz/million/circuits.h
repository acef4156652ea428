/* Circuits in ASCII AIGER: the reader with its refusals, whether circuits fit a formula, and their values (docs/FORMATS.md, "Circuits"). */
#pragma once
#include "tables.h"

struct Gate {
    uint64_t literal, left, right;
};
struct Circuits {
    struct Input {
        uint64_t literal;
        int name;
    };
    struct Output {
        int name;
        uint64_t literal;
    };
    std::vector<Input> inputs;
    std::vector<Output> outputs;
    std::vector<Gate> gates;     /* those that a gate reads stand before it */
    std::vector<size_t> written; /* the places of `gates` in the order of the file */
};

Circuits read_circuits(View text); /* throws Refused */
/* the form in which circuits are written, with the gates in the order of the file */
Bytes canonical(const Circuits &circuits);
/* what does not fit, as the line says it behind `circuits`; empty: nothing. The owner's variables have the circuits */
Bytes misfit(const Formula &formula, const Circuits &circuits, char owner);
/* the tables of the outputs; an input that has no value is false */
Values values_of(const Circuits &circuits, const Values &inputs, size_t variables);
/* the tables of all variables of the formula, over those of the opponent in the order of the prefix, and how many these are */
Values values_under(const Formula &formula, const Circuits &circuits, char owner, size_t &variables);
/* Skolem functions where the owner is 'e', Herbrand functions where it is 'a' */
bool are_functions(const Formula &formula, const Circuits &circuits, char owner);
/* whether each gate is in the cone of an output */
bool are_all_gates_read(const Circuits &circuits);

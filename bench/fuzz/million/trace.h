/* Traces of solvers in the format QRP: the reader, and the judge of the cone of the empty line (docs/FORMATS.md, "Traces"). */
#pragma once
#include "formula.h"

struct Verdict {
    Bytes refusal;           /* 'line L cause K' */
    char owner = 0;          /* 'e' after SAT, 'a' after UNSAT, 0: unknown */
    bool has_merges = false; /* a line of the cone holds both signs of a variable of the owner */
};
Verdict judge_trace(const Formula &formula, View trace);

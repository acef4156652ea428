/* Files by chance: right ones, and ones with mistakes. */
#pragma once
#include "call.h"
#include "chance.h"
#include "formula.h"

/* --- formulas --- */
constexpr int MOST_MADE = 8; /* variables of a formula, so that its truth is a table */
Formula some_formula(Chance &chance);
/* a text of it as people write: comments, sets in pieces, free variables, repeated literals */
Bytes written(Chance &chance, const Formula &formula);
int signed_of(Chance &chance, const std::vector<int> &variables);

/* --- logs and proofs --- */
struct Walk {
    Bytes log, end;
};
Walk some_walk(Chance &chance, const Formula &start); /* valid steps, and the formula behind them */
Bytes some_refutation(Chance &chance, const Formula &start);
/* so many valid steps that a block of 1,000 ends near what stands behind; they leave the formula as it was */
Bytes padding(Chance &chance, const Formula &start);
Bytes in_bytes(View log); /* its additions and deletions as a binary proof */
Bytes some_step_text(Chance &chance, const Formula &formula);

/* --- circuits and traces --- */
/* circuits of the owner's variables; each value is the right one, or any with these odds */
Bytes some_circuits(Chance &chance, const Formula &formula, char owner, double careless);
Bytes some_trace(Chance &chance, const Formula &formula);

/* --- moves --- */
Bytes some_moves(Chance &chance, const Formula &formula);

/* --- mistakes --- */
Bytes spoiled(Chance &chance, Bytes text);         /* one to three, in words, lines or bytes */
Bytes spoiled_numbers(Chance &chance, Bytes text); /* one number is another one */
Bytes spoiled_bytes(Chance &chance, Bytes text);
Bytes spoiled_log(Chance &chance, Bytes text, const Formula &start);
void spoil_words(Chance &chance, std::vector<Bytes> &words);

/* --- whole cases --- */
Case some_case(Chance &chance, View verb); /* verb: one command alone, or empty */

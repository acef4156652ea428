/* Lists of moves: mostly ones that name clauses, variables and literals of the formula, so that some apply. */
#include "making.h"
#include "moves.h"

static Bytes some_literal(Chance &chance, const std::vector<int> &variables, const Clause &clause) {
    return number_text(!clause.empty() && chance.odds(0.8) ? chance.of(clause) : signed_of(chance, variables));
}

static Bytes some_move(Chance &chance, const Formula &formula, const std::vector<int> &variables) {
    const auto &[rule, form] = rules()[chance.below(rules().size())];
    const size_t count = formula.matrix.size(), place = count ? chance.below(count) : 0;
    const Clause clause = count ? formula.matrix[place] : Clause();
    Bytes line(rule);
    bool is_first = true;
    for (char kind : form) {
        const bool is_of_variable = rule == "eliminate" || rule == "expand";
        if (kind == 'L') line += " " + some_literal(chance, variables, clause);
        else if (is_of_variable) line += " " + number_text(chance.of(variables));
        else line += " " + number_text(static_cast<int64_t>(is_first && count ? place : chance.below(count + 3)));
        is_first = false;
    }
    return line;
}

Bytes some_moves(Chance &chance, const Formula &formula) {
    std::vector<int> variables;
    for (const Bound &bound : formula.prefix) variables.push_back(bound.variable);
    if (variables.empty()) variables.push_back(1);
    Bytes text;
    /* a list ends with so many moves that do not apply */
    if (chance.odds(0.03))
        for (size_t left = chance.among({1022, 1023, 1024}); left > 0; left--) text += "eliminate 4294967295\n";
    for (size_t left = 1 + chance.below(20); left > 0; left--) {
        text += some_move(chance, formula, variables) + "\n";
        if (chance.odds(0.05)) text += "\n";
    }
    if (chance.odds(0.1)) text.pop_back();
    return chance.odds(0.15) ? spoiled(chance, text) : text;
}

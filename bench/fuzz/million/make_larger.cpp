/* Twelve variables, and so many clauses that each elimination would make the formula grow, or that one literal has a long row; pairs of
 * variables; and other numbers. */
#include "make_larger.h"
#include <array>
#include <cstdlib>
#include <map>
#include <set>
#include <utility>

Formula larger_formula(Chance &chance) {
    constexpr int COUNT = 12;
    Formula formula;
    char quantifier = chance.coin() ? 'e' : 'a';
    const double share = chance.among({0.0, 0.2, 0.5});
    for (int v = 1; v <= COUNT; v++) {
        if (chance.odds(share)) quantifier = quantifier == 'e' ? 'a' : 'e';
        formula.prefix.push_back({v > COUNT / 2 || share == 0 ? 'e' : quantifier, v});
    }
    for (size_t left = 50 + chance.below(50); left > 0; left--) {
        Clause clause;
        for (size_t length = chance.odds(0.2) ? chance.among({3, 7}) : 4; length > 0; length--) {
            const int v = 1 + static_cast<int>(chance.below(COUNT));
            clause.push_back(chance.coin() ? v : -v);
        }
        formula.matrix.push_back(clause);
    }
    return formula;
}

/* a row is long from 64 clauses on */
Formula crowded_formula(Chance &chance) {
    Formula formula = larger_formula(chance);
    formula.matrix.resize(10 + chance.below(10));
    const int crowded = chance.among({1, -1, 12, -12});
    for (size_t left = 70 + chance.below(60); left > 0; left--) {
        Clause clause{crowded};
        while (clause.size() < 3) {
            const int v = 1 + static_cast<int>(chance.below(12));
            if (v != std::abs(crowded)) clause.push_back(chance.coin() ? v : -v);
        }
        formula.matrix.push_back(clause);
    }
    chance.shuffle(formula.matrix);
    return formula;
}

/* the variables stand in pairs, and who has the later one of a pair wins by making it the earlier one, or its negation */
Formula following_formula(Chance &chance) {
    const int pairs = 1 + static_cast<int>(chance.below(2)), last = 3 * pairs;
    const bool is_false = chance.coin(), is_nested = chance.coin();
    const char first = is_false ? 'e' : 'a', second = is_false ? 'a' : 'e';
    Formula formula;
    for (int p = 0; p < pairs; p++) formula.prefix.push_back({first, 2 * p + 1}), formula.prefix.push_back({second, 2 * p + 2});
    if (is_nested && pairs == 2) std::swap(formula.prefix[1], formula.prefix[2]);
    Clause none;
    for (int p = 0; p < pairs; p++) {
        const int x = chance.coin() ? 2 * p + 1 : -2 * p - 1, y = 2 * p + 2, t = 2 * pairs + 1 + p;
        formula.prefix.push_back({'e', t});
        formula.matrix.insert(formula.matrix.end(), {{x, y, t}, {-x, -y, t}});
        none.push_back(-t);
    }
    if (is_false) formula.matrix.push_back(none);
    else
        for (int t : none) formula.matrix.push_back({t});
    for (size_t left = chance.below(3); left > 0; left--) {
        Clause clause;
        for (size_t length = 2 + chance.below(2); length > 0; length--) {
            const int v = 1 + static_cast<int>(chance.below(static_cast<size_t>(last)));
            clause.push_back(chance.coin() ? v : -v);
        }
        formula.matrix.push_back(clause);
    }
    chance.shuffle(formula.matrix);
    return formula;
}

/* either all variables lie together, or each one lies near any of these */
Formula renumbered(Chance &chance, Formula formula) {
    constexpr int NEAR = 40;
    static constexpr std::array<int, 6> ENDS{NEAR, 3000, 65536, 524288, 1048576, MOST_VARIABLES - NEAR};
    const size_t ends = chance.odds(0.1) ? ENDS.size() : ENDS.size() - 1; /* the reader goes through all numbers, which costs time */
    const bool are_together = chance.coin();
    const int end = ENDS[chance.below(ends)];
    std::map<int, int> numbers;
    std::set<int> taken;
    for (Bound &bound : formula.prefix) {
        int &number = numbers[bound.variable];
        do number = (are_together ? end : ENDS[chance.below(ends)]) + static_cast<int>(chance.between(1 - NEAR, NEAR));
        while (!taken.insert(number).second);
        bound.variable = number;
    }
    for (Clause &clause : formula.matrix)
        for (int &k : clause) k = k < 0 ? -numbers.at(-k) : numbers.at(k);
    return formula;
}

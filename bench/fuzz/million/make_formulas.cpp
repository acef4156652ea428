/* Small formulas: clauses by chance, clauses of gates, copies, clauses that almost hold each other, now and then the empty one. */
#include "making.h"
#include <algorithm>
#include <cstdlib>

int signed_of(Chance &chance, const std::vector<int> &variables) {
    const int v = variables[chance.below(variables.size())];
    return chance.coin() ? v : -v;
}

static std::vector<Bound> some_prefix(Chance &chance, std::vector<int> &variables) {
    const size_t count = chance.odds(0.4) ? MOST_MADE : 1 + chance.below(MOST_MADE);
    for (size_t v = 1; v <= count; v++) variables.push_back(static_cast<int>(v));
    if (chance.odds(0.7)) chance.shuffle(variables);
    if (chance.odds(0.02)) variables.back() = chance.among({9, 100, 3000});
    const double share = chance.among({0.1, 0.3, 0.5, 0.7, 1.0});
    std::vector<Bound> prefix;
    char quantifier = chance.coin() ? 'a' : 'e';
    for (int v : variables) {
        if (chance.odds(share)) quantifier = quantifier == 'a' ? 'e' : 'a';
        prefix.push_back({quantifier, v});
    }
    if (chance.odds(0.5) && prefix.back().quantifier == 'a') prefix.back().quantifier = 'e';
    return prefix;
}

static void add_gates(Chance &chance, const std::vector<int> &variables, std::vector<Clause> &matrix) {
    for (size_t left = 1 + chance.below(3); left > 0; left--) {
        const int out = signed_of(chance, variables), one = signed_of(chance, variables), other = signed_of(chance, variables);
        switch (chance.below(3)) {
        case 0: matrix.insert(matrix.end(), {{-out, one}, {-out, other}, {out, -one, -other}}); break;
        case 1: matrix.insert(matrix.end(), {{-out, one}, {out, -one}}); break;
        default: matrix.insert(matrix.end(), {{-out, one, other}, {-out, -one, -other}, {out, -one, other}, {out, one, -other}});
        }
    }
}
/* a clause that is another one with a literal more, less, or turned round */
static Clause near(Chance &chance, Clause clause, const std::vector<int> &variables) {
    const size_t way = chance.below(3);
    if (way == 0 || clause.empty()) clause.push_back(signed_of(chance, variables));
    else if (way == 1) clause[chance.below(clause.size())] *= -1;
    else clause.erase(clause.begin() + static_cast<std::ptrdiff_t>(chance.below(clause.size())));
    return clause;
}

Formula some_formula(Chance &chance) {
    Formula formula;
    std::vector<int> variables;
    formula.prefix = some_prefix(chance, variables);
    const bool is_dense = variables.size() > 5 && chance.odds(0.1); /* of which clauses are left, mostly, when no rule applies */
    const size_t most = is_dense ? 40 : chance.among({size_t(4), size_t(8), size_t(12), size_t(20)});
    const size_t size = is_dense ? 3 + chance.below(3) : chance.among({size_t(0), size_t(2), size_t(3), size_t(4)}); /* 0: mixed */
    for (size_t left = is_dense ? 15 + chance.below(most) : chance.below(most + 1); left > 0; left--) {
        Clause clause;
        size_t length =
            size ? size : chance.among({size_t(1), size_t(2), size_t(2), size_t(3), size_t(3), size_t(3), size_t(4), size_t(5), size_t(7)});
        while (length-- > 0) clause.push_back(signed_of(chance, variables));
        formula.matrix.push_back(clause);
    }
    if (chance.odds(0.35)) add_gates(chance, variables, formula.matrix);
    for (size_t left = chance.odds(0.3) ? 1 + chance.below(3) : 0; left > 0 && !formula.matrix.empty(); left--)
        formula.matrix.push_back(chance.odds(0.4) ? Clause(chance.of(formula.matrix)) : near(chance, chance.of(formula.matrix), variables));
    if (chance.odds(0.02)) formula.matrix.push_back({});
    chance.shuffle(formula.matrix);
    return formula;
}

static Bytes spaced(Chance &chance, const std::vector<Bytes> &words, bool is_neat) {
    Bytes line;
    for (const Bytes &word : words) {
        if (!line.empty()) line += is_neat ? " " : chance.among({" ", " ", "  ", "\t", " \r", "\n", " \t "});
        line += word;
    }
    return line + (!is_neat && chance.odds(0.1) ? "\r\n" : "\n");
}

Bytes written(Chance &chance, const Formula &formula) {
    const bool is_neat = chance.odds(0.7), has_free = chance.odds(0.1);
    int most = 0;
    std::vector<Bound> bound;
    for (const Bound &b : formula.prefix) {
        most = std::max(most, b.variable);
        if (!has_free || b.quantifier == 'a' || chance.coin()) bound.push_back(b);
    }
    if (most < MOST_VARIABLES) most += chance.among({0, 0, 0, 1});
    Bytes text = is_neat ? "" : chance.among({"", "c a comment\n", " c\n", "\n", "cnf\n"});
    text += spaced(chance, {"p", "cnf", number_text(most), number_text(static_cast<int64_t>(formula.matrix.size()))}, true);
    const bool is_in_pieces = !is_neat && chance.odds(0.3);
    for (size_t at = 0; at < bound.size();) {
        std::vector<Bytes> words{Bytes(1, bound[at].quantifier)};
        const char quantifier = bound[at].quantifier;
        do words.push_back(number_text(bound[at++].variable));
        while (at < bound.size() && bound[at].quantifier == quantifier && !is_in_pieces);
        words.push_back("0");
        text += spaced(chance, words, is_neat);
        if (!is_neat && chance.odds(0.05)) text += chance.among({"e 0\n", "a 0\n", "c e\n"});
    }
    for (Clause clause : formula.matrix) {
        chance.shuffle(clause);
        if (!is_neat && !clause.empty() && chance.odds(0.2)) clause.push_back(clause[0]);
        std::vector<Bytes> words;
        for (int k : clause)
            words.push_back((!is_neat && chance.odds(0.05) ? (k < 0 ? "-0" : "00") + number_text(std::abs(k)) : number_text(k)));
        words.push_back(!is_neat && chance.odds(0.05) ? "00" : "0");
        text += spaced(chance, words, is_neat);
    }
    if (chance.odds(0.05) && !text.empty()) text.pop_back();
    return text;
}

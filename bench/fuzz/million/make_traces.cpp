/* Resolution proofs read off a game. The formula is played through in the order of the prefix; where it ends, a clause that is false, or a
 * term under which all clauses are true, stands by itself. At a variable of the opponent's both sides are resolved; a literal of the
 * owner's is taken away at once, or later: then lines hold both signs of it, by long-distance resolution. */
#include "making.h"
#include "tables.h"
#include <algorithm>
#include <cstdlib>
#include <set>

namespace {

struct Line {
    std::set<int> literals;
    std::vector<size_t> named;
};

class Prover {
  public:
    Prover(Chance &chance, const Formula &formula) : chance_(chance), formula_(formula), tables_(games(formula)) {
        owner_ = tables_[0].at(0) ? 'e' : 'a';
        lazy_ = chance.among({0.0, 0.3, 0.8});
        for (const Clause &clause : formula.matrix)
            if (std::none_of(clause.begin(), clause.end(), [&](int k) { return holds(clause, -k); })) plain_.push_back(clause_of(clause));
    }
    void prove() {
        const size_t last = go(0, 0);
        if (lines_[last].literals.empty()) return;
        lines_.push_back({{}, {last}});
    }
    Bytes text() {
        Bytes text = "p qrp " + std::to_string(formula_.prefix.size()) + " " + std::to_string(formula_.matrix.size()) + "\n";
        for (const Bound &bound : formula_.prefix) text += Bytes(1, bound.quantifier) + " " + std::to_string(bound.variable) + " 0\n";
        std::vector<size_t> names;
        size_t name = 0;
        for (const Line &line : lines_) {
            name += 1 + (chance_.odds(0.1) ? chance_.below(4) : 0);
            if (chance_.odds(0.03))
                text += std::to_string(name++) + " " + std::to_string(1 + chance_.below(9)) + " 0 " + std::to_string(1 + chance_.below(9)) +
                        " 0\n";
            names.push_back(name);
            text += std::to_string(name) + " ";
            for (int k : line.literals) text += std::to_string(k) + " ";
            text += "0 ";
            for (size_t at : line.named) text += std::to_string(names[at]) + " ";
            text += "0\n";
        }
        return text + (owner_ == 'e' ? "r SAT\n" : "r UNSAT\n");
    }

  private:
    Chance &chance_;
    const Formula &formula_;
    std::vector<Table> tables_;
    std::vector<Clause> plain_;
    std::vector<Line> lines_;
    char owner_;
    double lazy_;

    bool is_owned(size_t place) const { return formula_.prefix[place].quantifier == owner_; }
    size_t place_of(int k) const {
        size_t at = 0;
        while (formula_.prefix[at].variable != std::abs(k)) at++;
        return at;
    }
    /* a literal's value where the first variables have values: 0, 1, or 2 where it has none */
    int value(int k, size_t depth, size_t values) const {
        const size_t place = place_of(k);
        return place >= depth ? 2 : (values >> place & 1) == (k > 0);
    }
    size_t push(Line line) {
        lines_.push_back(std::move(line));
        return lines_.size() - 1;
    }
    /* the literal of the line that has been taken for false (for a term, for true) at this place */
    int literal_at(size_t place, size_t values) const {
        const bool is_true = (values >> place & 1) == (owner_ == 'e');
        return is_true ? formula_.prefix[place].variable : -formula_.prefix[place].variable;
    }
    /* a line that stands by itself at this node; false: none */
    bool leaf(size_t depth, size_t values, size_t &found) {
        return owner_ == 'a' ? leaf_clause(depth, values, found) : leaf_term(depth, values, found);
    }
    bool leaf_clause(size_t depth, size_t values, size_t &found) {
        for (const Clause &clause : plain_) {
            std::set<int> kept;
            const bool is_false = std::all_of(clause.begin(), clause.end(), [&](int k) {
                const int v = value(k, depth, values);
                if (v == 0) kept.insert(k);
                return v == 0 || (v == 2 && is_owned(place_of(k)));
            });
            if (!is_false) continue;
            found = push({std::set<int>(clause.begin(), clause.end()), {}});
            if (kept.size() < clause.size()) found = push({kept, {found}});
            return true;
        }
        return false;
    }
    bool leaf_term(size_t depth, size_t values, size_t &found) {
        std::set<int> term;
        for (const Clause &clause : plain_) {
            Clause good;
            for (int k : clause)
                if (value(k, depth, values) == 1) good.push_back(k);
            if (good.empty()) return false;
            term.insert(chance_.of(good));
        }
        found = push({term, {}});
        return true;
    }
    size_t without(size_t line, int k) {
        Line less = lines_[line];
        less.literals.erase(k);
        if (line + 1 == lines_.size() && !less.named.empty() && chance_.coin()) return lines_[line] = less, line;
        less.named = {line};
        return push(less);
    }
    size_t go(size_t depth, size_t values) {
        size_t found;
        if ((depth == formula_.prefix.size() || chance_.odds(0.8)) && leaf(depth, values, found)) return found;
        const size_t bit = size_t(1) << depth;
        if (is_owned(depth)) {
            const bool wins_high = tables_[depth + 1].at(values | bit) == (owner_ == 'e'),
                       wins_low = tables_[depth + 1].at(values) == (owner_ == 'e');
            const bool is_high = wins_high == wins_low ? chance_.coin() : wins_high;
            const size_t here = values | (is_high ? bit : 0), line = go(depth + 1, here);
            const int k = literal_at(depth, here);
            const auto &literals = lines_[line].literals;
            return literals.count(k) && !literals.count(-k) && !chance_.odds(lazy_) && may_reduce(line, depth) ? without(line, k) : line;
        }
        const size_t low = go(depth + 1, values);
        const int k = literal_at(depth, values);
        if (!lines_[low].literals.count(k)) return low;
        const size_t high = go(depth + 1, values | bit);
        if (!lines_[high].literals.count(-k)) return high;
        Line line = lines_[low];
        line.literals.insert(lines_[high].literals.begin(), lines_[high].literals.end());
        line.literals.erase(k), line.literals.erase(-k);
        line.named = {low, high};
        if (chance_.coin()) std::swap(line.named[0], line.named[1]);
        return push(line);
    }
    /* all of the opponent's literals stand before this place */
    bool may_reduce(size_t line, size_t place) const {
        return std::all_of(lines_[line].literals.begin(), lines_[line].literals.end(),
                           [&](int k) { return is_owned(place_of(k)) || place_of(k) < place; });
    }
};

} // namespace

Bytes some_trace(Chance &chance, const Formula &formula) {
    Prover prover(chance, formula);
    prover.prove();
    return prover.text();
}

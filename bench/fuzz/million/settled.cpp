/* Each rule is tried at each place where it could apply. A clause is two sets of places of the prefix. */
#include "settled.h"
#include <algorithm>
#include <cstdlib>
#include <map>

namespace {

using Places = uint64_t;
struct Row {
    Places positive = 0, negative = 0;
    bool is_within(const Row &other) const { return !(positive & ~other.positive) && !(negative & ~other.negative); }
    bool clashes(const Row &other) const { return (positive & other.negative) | (negative & other.positive); }
    bool is_tautology() const { return positive & negative; }
    int64_t size() const { return __builtin_popcountll(positive) + __builtin_popcountll(negative); }
    Places variables() const { return positive | negative; }
    Row joined(const Row &other) const { return {positive | other.positive, negative | other.negative}; }
};
struct Literal {
    int place;
    bool is_negative;
    Places bit() const { return Places(1) << place; }
    Literal negated() const { return {place, !is_negative}; }
    Row row() const { return is_negative ? Row{0, bit()} : Row{bit(), 0}; }
};
bool has(const Row &row, Literal l) { return ((l.is_negative ? row.negative : row.positive) & l.bit()) != 0; }
Row without(Row row, Literal l) {
    (l.is_negative ? row.negative : row.positive) &= ~l.bit();
    return row;
}

class Rules {
  public:
    Rules(const Formula &formula, int64_t grow, int64_t expand)
        : grow_(grow), expand_(expand), count_(static_cast<int>(formula.prefix.size())) {
        const std::vector<int> blocks = block_numbers(formula.prefix);
        std::map<int, int> places;
        for (int at = 0; at < count_; at++) {
            const Bound &bound = formula.prefix[static_cast<size_t>(at)];
            places[bound.variable] = at;
            greatest_ = std::max<int64_t>(greatest_, bound.variable);
            if (bound.quantifier == 'e') existentials_ |= Places(1) << at;
            Places outer = 0;
            for (int other = 0; other < count_; other++)
                if (blocks[static_cast<size_t>(other)] <= blocks[static_cast<size_t>(at)]) outer |= Places(1) << other;
            outer_.push_back(outer);
        }
        for (const Clause &clause : formula.matrix) {
            Row row;
            for (int k : clause) row = row.joined(Literal{places[std::abs(k)], k < 0}.row());
            rows_.push_back(row);
        }
    }
    const char *target() {
        if (rows_.size() == 1 && rows_[0].size() == 0) return nullptr;
        for (size_t c = 0; c < rows_.size(); c++) {
            if (rows_[c].is_tautology()) return "Tautology";
            if (rows_[c].size() == 1 && (rows_[c].variables() & existentials_)) return "Unit";
            if (is_subsumer(c)) return "Subsumed";
            if (is_strengthener(c)) return "Strengthen";
            if (const char *rule = target_of_literals(c)) return rule;
            if (is_covered(c)) return "Cover";
        }
        if (has_pure()) return "Pure";
        if (has_equal_literals()) return "Merge";
        for (int place = 0; place < count_; place++) {
            if (is_existential(place) && may_be_eliminated(place)) return "Eliminate";
            if (!is_existential(place) && may_be_expanded(place)) return "Expand";
        }
        return nullptr;
    }

  private:
    int64_t grow_, expand_, greatest_ = 0;
    int count_;
    Places existentials_ = 0;
    std::vector<Places> outer_; /* outer or same */
    std::vector<Row> rows_;

    bool is_existential(int place) const { return existentials_ >> place & 1; }
    Places inner_existentials(int place) const { return existentials_ & ~outer_[static_cast<size_t>(place)]; }
    /* of the clause, on its literal l */
    Row outer_clause(const Row &row, Literal l) const {
        const Places outer = outer_[static_cast<size_t>(l.place)];
        return without({row.positive & outer, row.negative & outer}, l);
    }
    template <class Test> bool each_other(size_t c, Literal l, Test test) const {
        for (size_t d = 0; d < rows_.size(); d++)
            if (d != c && has(rows_[d], l) && !test(rows_[d])) return false;
        return true;
    }
    template <class Test> bool some_literal(const Row &row, Test test) const {
        for (int place = 0; place < count_; place++)
            for (bool is_negative : {false, true})
                if (has(row, {place, is_negative}) && test(Literal{place, is_negative})) return true;
        return false;
    }

    bool is_subsumer(size_t c) const {
        for (size_t d = 0; d < rows_.size(); d++)
            if (d != c && rows_[c].is_within(rows_[d])) return true;
        return false;
    }
    bool is_strengthener(size_t c) const {
        return some_literal(rows_[c], [&](Literal k) {
            const Row rest = without(rows_[c], k);
            if (has(rest, k.negated())) return false;
            for (size_t d = 0; d < rows_.size(); d++)
                if (d != c && has(rows_[d], k.negated()) && rest.is_within(rows_[d])) return true;
            return false;
        });
    }
    bool is_blocked(size_t c, Literal l, const Row &set) const {
        return each_other(c, l.negated(), [&](const Row &d) { return outer_clause(d, l.negated()).clashes(set); });
    }
    const char *target_of_literals(size_t c) const {
        const char *found = nullptr;
        some_literal(rows_[c], [&](Literal l) {
            if (is_existential(l.place)) found = is_blocked(c, l, rows_[c]) ? "Blocked" : nullptr;
            else if (is_reducible(c, l)) found = "Cut";
            else found = !has(rows_[c], l.negated()) && is_blocked(c, l, rows_[c]) ? "BlockedForall" : nullptr;
            return found != nullptr;
        });
        return found;
    }
    bool is_reducible(size_t c, Literal l) const {
        std::vector<bool> is_reached(rows_.size(), false);
        std::vector<size_t> waiting{c};
        is_reached[c] = true;
        const Places inner = inner_existentials(l.place);
        while (!waiting.empty()) {
            const Row here = rows_[waiting.back()];
            waiting.pop_back();
            if (has(here, l.negated())) return false;
            for (size_t d = 0; d < rows_.size(); d++) {
                const Row reached{here.positive & inner, here.negative & inner};
                if (is_reached[d] || has(rows_[d], l) || !reached.clashes(rows_[d])) continue;
                is_reached[d] = true;
                waiting.push_back(d);
            }
        }
        return true;
    }
    /* a hidden literal, the covered ones, or the end of growing */
    bool grow_hidden(size_t c, Row &set) const {
        for (size_t d = 0; d < rows_.size(); d++) {
            if (d == c) continue;
            const bool has_grown = some_literal(rows_[d], [&](Literal k) {
                if (has(set, k.negated()) || !without(rows_[d], k).is_within(set)) return false;
                set = set.joined(k.negated().row());
                return true;
            });
            if (has_grown) return true;
        }
        return false;
    }
    bool grow_covered(size_t c, Row &set) const {
        return some_literal(set, [&](Literal l) {
            if (!is_existential(l.place)) return false;
            Row common{~Places(0), ~Places(0)};
            bool has_some = false;
            each_other(c, l.negated(), [&](const Row &d) {
                const Row outer = outer_clause(d, l.negated());
                if (outer.clashes(set)) return true;
                has_some = true;
                common = {common.positive & outer.positive, common.negative & outer.negative};
                return true;
            });
            if (!has_some || common.is_within(set)) return false;
            set = set.joined(common);
            return true;
        });
    }
    bool is_covered(size_t c) const {
        Row set = rows_[c];
        while (true) {
            if (set.is_tautology()) return true;
            if (some_literal(set, [&](Literal l) { return is_existential(l.place) && is_blocked(c, l, set); })) return true;
            if (!grow_hidden(c, set) && !grow_covered(c, set)) return false;
        }
    }
    bool has_pure() const {
        Row all;
        for (const Row &row : rows_) all = all.joined(row);
        return (all.positive ^ all.negative) != 0;
    }
    /* two literals of which clauses of two lead from each to the other */
    bool has_equal_literals() const {
        const size_t size = 2 * static_cast<size_t>(count_);
        std::vector<std::vector<bool>> leads(size, std::vector<bool>(size, false));
        const auto index = [](Literal l) { return 2 * static_cast<size_t>(l.place) + l.is_negative; };
        for (const Row &row : rows_) {
            if (row.size() != 2) continue;
            some_literal(row, [&](Literal x) {
                return some_literal(without(row, x), [&](Literal y) { return leads[index(x.negated())][index(y)] = true, false; });
            });
        }
        for (size_t k = 0; k < size; k++)
            for (size_t i = 0; i < size; i++)
                for (size_t j = 0; j < size && leads[i][k]; j++)
                    if (leads[k][j]) leads[i][j] = true;
        for (size_t keep = 0; keep < size; keep++)
            for (size_t gone = 0; gone < size; gone++) {
                if (keep / 2 == gone / 2 || !leads[keep][gone] || !leads[gone][keep]) continue;
                if (is_existential(static_cast<int>(gone / 2)) && outer_[gone / 2] >> (keep / 2) & 1) return true;
            }
        return false;
    }
    bool may_be_eliminated(int x) const {
        std::vector<Row> sides[2];
        int64_t size = 0;
        for (const Row &row : rows_) {
            if (!(row.variables() >> x & 1)) continue;
            if (row.is_tautology()) return false;
            sides[has(row, {x, true})].push_back(row);
            size += row.size() + 1;
        }
        const auto is_outer = [&](const std::vector<Row> &side) {
            return std::all_of(side.begin(), side.end(),
                               [&](const Row &row) { return !(row.variables() & ~outer_[static_cast<size_t>(x)]); });
        };
        if (!is_outer(sides[0]) && !is_outer(sides[1])) return false;
        int64_t resolvents = 0;
        for (const Row &one : sides[0])
            for (const Row &other : sides[1]) {
                const Row row = without(one, {x, false}).joined(without(other, {x, true}));
                if (!row.is_tautology()) resolvents += row.size() + 1;
            }
        return resolvents <= size + grow_;
    }
    bool may_be_expanded(int u) const {
        const Places bit = Places(1) << u, inner = inner_existentials(u);
        std::vector<bool> is_in(rows_.size(), false);
        Places connected = 0;
        int64_t holders = 0, others = 0;
        for (size_t d = 0; d < rows_.size(); d++) {
            if (!(rows_[d].variables() & bit)) continue;
            if (has(rows_[d], {u, false}) && has(rows_[d], {u, true})) return false;
            is_in[d] = true, holders++, connected |= rows_[d].variables() & inner;
        }
        for (bool is_changed = true; is_changed;) {
            is_changed = false;
            for (size_t d = 0; d < rows_.size(); d++) {
                if (is_in[d] || !(rows_[d].variables() & connected)) continue;
                is_in[d] = is_changed = true;
                others += rows_[d].size() + 1, connected |= rows_[d].variables() & inner;
            }
        }
        const int64_t copies = __builtin_popcountll(connected);
        return copies <= expand_ && others - holders <= expand_ && greatest_ + copies <= MOST_VARIABLES;
    }
};

} // namespace

bool is_swept(const Formula &formula) {
    if (has_empty_clause(formula)) return formula.matrix.size() == 1 && formula.prefix.empty();
    return used_variables(formula).size() == formula.prefix.size();
}
const char *target_of(const Formula &formula, int64_t grow, int64_t expand) { return Rules(formula, grow, expand).target(); }

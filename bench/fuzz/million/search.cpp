/* Plain searches, by recursion. */
#include "search.h"
#include <algorithm>
#include <cstdlib>
#include <unordered_map>

namespace {

enum Value : signed char { False, True, Open };
Value negated(Value v) { return v == Open ? Open : v == True ? False : True; }

/* --- the validator --- */
class Inputs {
  public:
    Inputs(const Formula &formula, const Circuits &circuits) : formula_(formula), circuits_(circuits) {
        places_[0] = 0;
        for (const auto &input : circuits.inputs) places_[input.literal] = nodes_++;
        for (const Gate &gate : circuits.gates) places_[gate.literal] = nodes_++;
        for (const auto &output : circuits.outputs) literal_of_[output.name] = index(output.literal);
        std::vector<int> strangers;
        for (const Bound &bound : formula.prefix) {
            if (bound.quantifier != 'a') continue;
            const int index = index_of_input(bound.variable);
            literal_of_[bound.variable] = index < 0 ? 0 : 2 * (index + 1);
            if (index < 0) strangers.push_back(bound.variable);
        }
        for (const Clause &clause : formula.matrix) {
            Row row;
            for (int k : clause) {
                const bool is_stranger = std::find(strangers.begin(), strangers.end(), std::abs(k)) != strangers.end();
                if (is_stranger) row.is_true = row.is_true || holds(clause, -k);
                else row.literals.push_back(literal_of_.at(std::abs(k)) ^ (k < 0));
            }
            rows_.push_back(row);
        }
        for (const Gate &gate : circuits.gates) gates_.push_back({index(gate.left), index(gate.right)});
        values_.assign(static_cast<size_t>(nodes_), Open);
        values_[0] = False;
    }
    Tried run() {
        tried_.is_hit = go(0);
        return std::move(tried_);
    }

  private:
    struct Row {
        std::vector<int> literals; /* those that count */
        bool is_true = false;
    };
    const Formula &formula_;
    const Circuits &circuits_;
    int nodes_ = 1;
    std::unordered_map<uint64_t, int> places_;
    std::unordered_map<int, int> literal_of_;
    std::vector<Row> rows_;
    std::vector<std::pair<int, int>> gates_;
    std::vector<Value> values_;
    Tried tried_;

    int index(uint64_t literal) const { return 2 * places_.at(literal & ~uint64_t(1)) + static_cast<int>(literal & 1); }
    int index_of_input(int name) const {
        for (size_t at = 0; at < circuits_.inputs.size(); at++)
            if (circuits_.inputs[at].name == name) return static_cast<int>(at);
        return -1;
    }
    Value value(int literal) const {
        const Value v = values_[static_cast<size_t>(literal / 2)];
        return literal & 1 ? negated(v) : v;
    }
    void take_gates() {
        for (size_t at = 0; at < gates_.size(); at++) {
            const Value left = value(gates_[at].first), right = value(gates_[at].second);
            values_[1 + circuits_.inputs.size() + at] = left == False || right == False ? False
                                                        : left == True && right == True ? True
                                                                                        : Open;
        }
    }
    Value clause(const Row &row) const {
        if (row.is_true) return True;
        Value found = False;
        for (int literal : row.literals) {
            const Value v = value(literal);
            if (v == True) return True;
            if (v == Open) found = Open;
        }
        return found;
    }
    bool go(size_t known) {
        take_gates();
        bool is_closed = true;
        for (size_t at = 0; at < rows_.size(); at++) {
            const Value v = clause(rows_[at]);
            if (v == False) return tell(known, formula_.matrix[at]), true;
            is_closed = is_closed && v == True;
        }
        if (is_closed) return false;
        tried_.branches++;
        for (Value v : {False, True}) {
            values_[1 + known] = v;
            if (go(known + 1)) return true;
        }
        values_[1 + known] = Open;
        return false;
    }
    void tell(size_t known, const Clause &clause) {
        for (const Bound &bound : formula_.prefix) {
            if (bound.quantifier != 'a') continue;
            const int index = index_of_input(bound.variable);
            bool is_true = holds(clause, -bound.variable);
            if (index >= 0) is_true = static_cast<size_t>(index) < known && values_[1 + static_cast<size_t>(index)] == True;
            tried_.counter.push_back(is_true ? bound.variable : -bound.variable);
        }
    }
};

/* --- the solver --- */
class Decisions {
  public:
    explicit Decisions(const Formula &formula) : formula_(formula) {
        std::unordered_map<int, int> places;
        for (size_t at = 0; at < formula.prefix.size(); at++) {
            places[formula.prefix[at].variable] = static_cast<int>(at);
            if (formula.prefix[at].quantifier == 'a') universals_ |= uint64_t(1) << at;
        }
        for (const Clause &clause : formula.matrix) {
            rows_.emplace_back(0, 0);
            for (int k : clause) (k > 0 ? rows_.back().first : rows_.back().second) |= uint64_t(1) << places[std::abs(k)];
        }
    }
    Decided run() {
        decided_.is_won = go(0, 0);
        return decided_;
    }

  private:
    static constexpr uint64_t MOST = 1 << 18;
    const Formula &formula_;
    std::vector<std::pair<uint64_t, uint64_t>> rows_;
    uint64_t universals_ = 0;
    Decided decided_;

    bool go(size_t depth, uint64_t values) {
        const uint64_t known = (uint64_t(1) << depth) - 1;
        bool is_won = true;
        for (const auto &[positive, negative] : rows_) {
            if ((positive & values) | (negative & known & ~values)) continue;
            is_won = false;
            const uint64_t open = ~known;
            if (!((positive | negative) & open & ~universals_) && !(positive & negative & open)) return false;
        }
        if (is_won) return true;
        if (++decided_.decisions > MOST) return decided_.is_known = false;
        const bool first = go(depth + 1, values), is_universal = universals_ >> depth & 1;
        if (!decided_.is_known || first != is_universal) return first;
        return go(depth + 1, values | uint64_t(1) << depth);
    }
};

} // namespace

Tried try_inputs(const Formula &formula, const Circuits &circuits) { return Inputs(formula, circuits).run(); }

Decided decide(const Formula &formula) {
    if (formula.prefix.size() > 60) return {false, false, 0};
    return Decisions(formula).run();
}

/* --- models --- */
static bool has_model_under(const std::vector<Clause> &clauses, std::unordered_map<int, bool> known) {
    int open = 0;
    for (bool is_changed = true; is_changed;) {
        is_changed = false, open = 0;
        for (const Clause &clause : clauses) {
            int left = 0, count = 0;
            bool is_true = false;
            for (int k : clause) {
                auto value = known.find(std::abs(k));
                if (value == known.end()) left = k, count++;
                else is_true = is_true || value->second == (k > 0);
            }
            if (is_true) continue;
            if (count == 0) return false;
            if (count == 1) known[std::abs(left)] = left > 0, is_changed = true;
            else open = std::abs(left);
        }
    }
    if (open == 0) return true;
    for (bool value : {false, true}) {
        known[open] = value;
        if (has_model_under(clauses, known)) return true;
    }
    return false;
}
bool has_model(const std::vector<Clause> &clauses, const std::vector<int> &literals) {
    std::unordered_map<int, bool> known;
    for (int k : literals) known[std::abs(k)] = k > 0;
    return has_model_under(clauses, known);
}

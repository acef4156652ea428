/* Circuits of a game that is played to its end: each variable of the owner's gets a value with which the game stays won, where there is
 * one; the values, as a table, become gates. */
#include "making.h"
#include "tables.h"
#include <algorithm>

namespace {

class Builder {
  public:
    explicit Builder(size_t inputs) : inputs_(inputs) {}
    uint64_t both(uint64_t left, uint64_t right) {
        if (left == 0 || right == 0 || left == (right ^ 1)) return 0;
        if (left == 1 || left == right) return right;
        if (right == 1) return left;
        gates_.push_back({left, right});
        return 2 * (inputs_ + gates_.size());
    }
    /* by the value of the last input that the row depends on */
    uint64_t of_row(const std::vector<bool> &row) {
        if (std::equal(row.begin() + 1, row.end(), row.begin())) return row[0];
        const auto middle = row.begin() + static_cast<std::ptrdiff_t>(row.size() / 2);
        const std::vector<bool> low(row.begin(), middle), high(middle, row.end());
        const uint64_t zero = of_row(low);
        if (low == high) return zero;
        const uint64_t one = of_row(high);
        const uint64_t test = 2 * static_cast<uint64_t>(__builtin_ctzll(row.size()));
        return both(both(test, one) ^ 1, both(test ^ 1, zero) ^ 1) ^ 1;
    }
    const std::vector<std::pair<uint64_t, uint64_t>> &gates() const { return gates_; }
    void waste(Chance &chance) {
        gates_.push_back({chance.below(2 * (inputs_ + gates_.size()) + 2), chance.below(2 * (inputs_ + gates_.size()) + 2)});
    }
    /* some gate reads any gate, so it may depend on itself */
    void tie(Chance &chance) { chance.of(gates_).second = 2 * (inputs_ + 1 + chance.below(gates_.size())); }

  private:
    size_t inputs_;
    std::vector<std::pair<uint64_t, uint64_t>> gates_;
};

/* the values of the owner's variables, as rows over the opponent's before them */
std::map<int, std::vector<bool>> play_all(Chance &chance, const Formula &formula, char owner, double careless) {
    const std::vector<Table> tables = games(formula);
    size_t others = 0;
    for (const Bound &bound : formula.prefix) others += bound.quantifier != owner;
    std::map<int, std::vector<bool>> rows, is_chosen;
    for (size_t given = 0; given < size_t(1) << others; given++) {
        size_t values = 0, before = 0;
        for (size_t place = 0; place < formula.prefix.size(); place++) {
            const Bound &bound = formula.prefix[place];
            const size_t bit = size_t(1) << place;
            if (bound.quantifier != owner) {
                values |= given >> before++ & 1 ? bit : 0;
                continue;
            }
            auto &row = rows[bound.variable], &chosen = is_chosen[bound.variable];
            row.resize(size_t(1) << before), chosen.resize(row.size());
            const size_t key = given & (row.size() - 1);
            if (!chosen[key]) {
                const bool wins_high = tables[place + 1].at(values | bit) == (owner == 'e'),
                           wins_low = tables[place + 1].at(values) == (owner == 'e');
                chosen[key] = true;
                row[key] = wins_high == wins_low || chance.odds(careless) ? chance.coin() : wins_high;
            }
            values |= row[key] ? bit : 0;
        }
    }
    return rows;
}

} // namespace

Bytes some_circuits(Chance &chance, const Formula &formula, char owner, double careless) {
    std::vector<int> others, owned;
    for (const Bound &bound : formula.prefix) (bound.quantifier == owner ? owned : others).push_back(bound.variable);
    if (formula.prefix.size() > 10) return "aag 0 0 0 0 0\n";
    const auto rows = play_all(chance, formula, owner, careless);
    Builder builder(others.size());
    std::vector<uint64_t> outputs;
    const bool has_waste = chance.odds(0.1);
    for (int v : owned) {
        if (has_waste) builder.waste(chance);
        outputs.push_back(builder.of_row(rows.at(v)));
    }
    if (!builder.gates().empty() && chance.odds(0.03)) builder.tie(chance);
    if (chance.odds(0.1)) { /* an order of its own */
        std::vector<std::pair<int, uint64_t>> pairs;
        for (size_t at = 0; at < owned.size(); at++) pairs.push_back({owned[at], outputs[at]});
        chance.shuffle(pairs);
        for (size_t at = 0; at < owned.size(); at++) owned[at] = pairs[at].first, outputs[at] = pairs[at].second;
    }
    const size_t count = others.size(), greatest = count + builder.gates().size() + chance.among({0u, 0u, 0u, 3u});
    Bytes text = "aag " + std::to_string(greatest) + " " + std::to_string(count) + " 0 " + std::to_string(outputs.size()) + " " +
                 std::to_string(builder.gates().size()) + "\n";
    for (size_t at = 0; at < count; at++) text += std::to_string(2 * (at + 1)) + "\n";
    for (uint64_t literal : outputs) text += std::to_string(literal) + "\n";
    std::vector<Bytes> lines;
    for (size_t at = 0; at < builder.gates().size(); at++)
        lines.push_back(std::to_string(2 * (count + at + 1)) + " " + std::to_string(builder.gates()[at].first) + " " +
                        std::to_string(builder.gates()[at].second) + "\n");
    if (chance.odds(0.5)) chance.shuffle(lines);
    for (const Bytes &line : lines) text += line;
    lines.clear();
    for (size_t at = 0; at < count; at++) lines.push_back("i" + std::to_string(at) + " " + std::to_string(others[at]) + "\n");
    for (size_t at = 0; at < owned.size(); at++) lines.push_back("o" + std::to_string(at) + " " + std::to_string(owned[at]) + "\n");
    if (chance.odds(0.1)) chance.shuffle(lines);
    for (const Bytes &line : lines) text += line;
    if (chance.odds(0.1)) text += chance.among({"c\n", "c\nwhatever\n", "\n", " \t\n", "c"});
    return text;
}

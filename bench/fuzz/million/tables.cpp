/* Truth tables, 64 assignments at once. */
#include "tables.h"
#include <cstdlib>

static const uint64_t PATTERNS[6] = {0xaaaaaaaaaaaaaaaau, 0xccccccccccccccccu, 0xf0f0f0f0f0f0f0f0u,
                                     0xff00ff00ff00ff00u, 0xffff0000ffff0000u, 0xffffffff00000000u};

Table::Table(size_t variables, bool value)
    : variables_(variables), bits_(variables > 6 ? size_t(1) << (variables - 6) : 1, value ? ~uint64_t(0) : 0) {
    bits_[0] &= mask();
}
Table Table::of_variable(size_t variables, size_t index) {
    Table table(variables, false);
    for (size_t at = 0; at < table.bits_.size(); at++) {
        uint64_t word = index < 6 ? PATTERNS[index] : (at >> (index - 6) & 1 ? ~uint64_t(0) : 0);
        table.bits_[at] = word & table.mask();
    }
    return table;
}
void Table::set(size_t assignment, bool value) {
    uint64_t bit = uint64_t(1) << (assignment & 63);
    bits_[assignment >> 6] = value ? bits_[assignment >> 6] | bit : bits_[assignment >> 6] & ~bit;
}
bool Table::is_all(bool value) const {
    for (uint64_t word : bits_)
        if (word != (value ? mask() : 0)) return false;
    return true;
}
Table Table::operator~() const {
    Table table = *this;
    for (uint64_t &word : table.bits_) word = ~word & mask();
    return table;
}
Table &Table::operator&=(const Table &other) {
    for (size_t at = 0; at < bits_.size(); at++) bits_[at] &= other.bits_[at];
    return *this;
}
Table &Table::operator|=(const Table &other) {
    for (size_t at = 0; at < bits_.size(); at++) bits_[at] |= other.bits_[at];
    return *this;
}
Table Table::quantified(char quantifier) const {
    Table low(variables_ - 1, false), high(variables_ - 1, false);
    if (variables_ > 6) {
        size_t half = bits_.size() / 2;
        for (size_t at = 0; at < half; at++) low.bits_[at] = bits_[at], high.bits_[at] = bits_[half + at];
    } else {
        low.bits_[0] = bits_[0] & low.mask();
        high.bits_[0] = bits_[0] >> (size_t(1) << (variables_ - 1)) & low.mask();
    }
    return quantifier == 'e' ? low | high : low & high;
}
Table Table::with(size_t index, bool value) const {
    Table table(variables_, false);
    for (size_t a = 0; a < size_t(1) << variables_; a++) table.set(a, at(value ? a | size_t(1) << index : a & ~(size_t(1) << index)));
    return table;
}

Table table_of(const std::vector<Clause> &matrix, const Values &values, size_t variables) {
    Table all(variables, true);
    for (const Clause &clause : matrix) {
        Table part(variables, false);
        for (int literal : clause) {
            const Table &value = values.at(std::abs(literal));
            part |= literal > 0 ? value : ~value;
        }
        all &= part;
    }
    return all;
}

std::vector<Table> games(const Formula &formula) {
    size_t count = formula.prefix.size();
    Values values;
    for (size_t at = 0; at < count; at++) values[formula.prefix[at].variable] = Table::of_variable(count, at);
    std::vector<Table> found(count + 1);
    found[count] = table_of(formula.matrix, values, count);
    for (size_t at = count; at-- > 0;) found[at] = found[at + 1].quantified(formula.prefix[at].quantifier);
    return found;
}
bool is_decided_by_tables(const Formula &formula) { return formula.prefix.size() <= MOST_IN_TABLES; }
bool is_true(const Formula &formula) { return games(formula)[0].at(0); }

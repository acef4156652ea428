/* Truth tables: a row of bits, one for each assignment of the first n variables of a list; variable i counts by 2^i. What is quantified
 * is the last variable, so a table gets half as long. */
#pragma once
#include "formula.h"
#include <map>

class Table {
  public:
    Table() = default;
    Table(size_t variables, bool value);
    static Table of_variable(size_t variables, size_t index);

    size_t variables() const { return variables_; }
    bool at(size_t assignment) const { return bits_[assignment >> 6] >> (assignment & 63) & 1; }
    void set(size_t assignment, bool value);
    bool is_all(bool value) const;
    bool operator==(const Table &other) const { return bits_ == other.bits_; }
    Table operator~() const;
    Table &operator&=(const Table &other);
    Table &operator|=(const Table &other);
    friend Table operator&(Table one, const Table &other) { return one &= other; }
    friend Table operator|(Table one, const Table &other) { return one |= other; }
    /* the last variable is taken away: some value of it, or each, will do */
    Table quantified(char quantifier) const;
    /* where the variable has this value */
    Table with(size_t index, bool value) const;

  private:
    size_t variables_ = 0;
    std::vector<uint64_t> bits_{0};
    uint64_t mask() const { return variables_ >= 6 ? ~uint64_t(0) : (uint64_t(1) << (size_t(1) << variables_)) - 1; }
};

using Values = std::map<int, Table>; /* of each variable */

/* the table of a matrix over these values; 0 variables in it: `variables` says over how many the tables are */
Table table_of(const std::vector<Clause> &matrix, const Values &values, size_t variables);

constexpr size_t MOST_IN_TABLES = 16;
/* the tables of a formula without its quantifiers from place n on, for each n; the first one is the truth of the formula */
std::vector<Table> games(const Formula &formula);
bool is_decided_by_tables(const Formula &formula);
bool is_true(const Formula &formula);

/* A formula and the steps that are made of it: whether a step is valid, and the least cause for which it is not (docs/FORMATS.md, "Proof
 * logs"; docs/THEORY.md has the words). A clause is two sets of variables, as bits, so a search for what is implied looks at each clause
 * by a few operations. */
#pragma once
#include "formula.h"
#include "steps.h"

constexpr int MOST_AT_ONCE = 128; /* variables of the prefix */
using Set = unsigned __int128;

/* the formula has more variables than this reference takes: nothing is said then */
struct TooLarge {};

/* why a valid step is valid */
enum class Reason { Implied, Pivot, Reach, ExtendedReach, None };

class Run {
  public:
    explicit Run(const Formula &formula);

    /* the least cause, or 0; `reason` is told where it is 0 */
    int cause(const Step &step);
    int hinted_cause(const Step &step);
    int making_cause(const Step &step); /* for which it can't be made, whoever judges it */
    int hinted_making_cause(const Step &step);
    int cause_at_end(const Formula &output) const;
    Reason reason() const { return reason_; }

    void make(const Step &step); /* one that can be made */
    bool has_empty_clause() const;
    Formula formula() const;
    const std::vector<Bound> &prefix() const { return prefix_; }
    size_t clauses() const { return clauses_.size(); }

    /* of a valid step, for what is carried back: the outer clauses on the negation of its first literal of all other clauses */
    std::vector<Clause> outer_clauses(const Step &step) const;
    bool is_implied(const Step &step) const;
    bool is_drop_by_pivot(const Step &step) const;
    bool is_extended(const Step &step) const; /* a valid drop, neither by a pivot nor plain */
    bool is_outer_or_same(int variable, int other) const { return outer_[slot_of(other)] >> slot_of(variable) & 1; }
    char quantifier_of(int variable) const; /* 0: not in the prefix */

  private:
    struct Row {
        Set positive = 0, negative = 0;
        bool operator==(const Row &other) const { return positive == other.positive && negative == other.negative; }
        bool operator<(const Row &other) const {
            return positive != other.positive ? positive < other.positive : negative < other.negative;
        }
        bool is_tautology() const { return positive & negative; }
        Row joined(const Row &other) const { return {positive | other.positive, negative | other.negative}; }
    };
    struct Numbered {
        int64_t number;
        Row row;
    };
    struct Literal { /* of the prefix */
        Set bit;
        int slot;
        bool is_negative;
    };
    static constexpr size_t NOWHERE = ~size_t(0);

    std::vector<Bound> prefix_;
    std::vector<int> slots_;           /* by places */
    int variables_[MOST_AT_ONCE] = {}; /* by slots; 0: free */
    Set outer_[MOST_AT_ONCE] = {};     /* by slots: what is outer or same */
    Set existentials_ = 0;
    std::vector<Numbered> clauses_;
    int64_t next_ = 1;
    Reason reason_ = Reason::None;

    int slot_of(int variable) const; /* -1: not in the prefix */
    int take_slot(int variable);
    void order();
    Literal literal_of(int literal) const;
    bool are_bound(const std::vector<int> &literals) const;
    Row row_of(const std::vector<int> &literals) const;
    Clause clause_of_row(const Row &row) const;
    size_t place_of(const Row &row) const;
    size_t place_of_step(const Step &step) const;

    static bool has(const Row &row, const Literal &l) { return ((l.is_negative ? row.negative : row.positive) & l.bit) != 0; }
    static bool has_negation(const Row &row, const Literal &l) { return ((l.is_negative ? row.positive : row.negative) & l.bit) != 0; }
    static Row without(Row row, const Literal &l);
    static Row without_negation(Row row, const Literal &l);
    Row outer_clause(const Row &row, const Literal &l) const; /* on the negation of l */
    bool implied(const Row &row, size_t skipped) const;
    bool pivot(const Row &row, const Literal &l, size_t skipped) const;
    bool reducible(const Row &row, const Literal &l, size_t skipped) const;
    bool chained(const Row &row, size_t skipped, const std::vector<int64_t> &hints) const;
    bool shown(const Step &step, const Row &row, size_t skipped) const;
    int cause_of_variables(const Step &step) const;
    int cause_of_drop(const Row &row, const Literal &l, size_t skipped);
};

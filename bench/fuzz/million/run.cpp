/* The judge of steps. */
#include "run.h"
#include <algorithm>
#include <cstdlib>

/* --- the prefix --- */
Run::Run(const Formula &formula) : prefix_(formula.prefix) {
    for (const Bound &bound : prefix_) slots_.push_back(take_slot(bound.variable));
    order();
    clauses_.reserve(formula.matrix.size() + 16);
    for (const Clause &clause : formula.matrix) clauses_.push_back({next_++, row_of(clause)});
}
int Run::take_slot(int variable) {
    for (int slot = 0; slot < MOST_AT_ONCE; slot++)
        if (variables_[slot] == 0) return variables_[slot] = variable, slot;
    throw TooLarge();
}
void Run::order() {
    const std::vector<int> blocks = block_numbers(prefix_);
    existentials_ = 0;
    Set before = 0;
    for (size_t at = 0, end; at < prefix_.size(); at = end) {
        for (end = at; end < prefix_.size() && blocks[end] == blocks[at]; end++) before |= Set(1) << slots_[end];
        for (size_t place = at; place < end; place++) {
            outer_[slots_[place]] = before;
            if (prefix_[place].quantifier == 'e') existentials_ |= Set(1) << slots_[place];
        }
    }
}
int Run::slot_of(int variable) const {
    for (size_t at = 0; at < prefix_.size(); at++)
        if (prefix_[at].variable == variable) return slots_[at];
    return -1;
}
char Run::quantifier_of(int variable) const {
    for (const Bound &bound : prefix_)
        if (bound.variable == variable) return bound.quantifier;
    return 0;
}

/* --- clauses and literals as bits --- */
Run::Literal Run::literal_of(int literal) const {
    int slot = slot_of(std::abs(literal));
    return {Set(1) << slot, slot, literal < 0};
}
bool Run::are_bound(const std::vector<int> &literals) const {
    return std::all_of(literals.begin(), literals.end(), [this](int literal) { return slot_of(std::abs(literal)) >= 0; });
}
Run::Row Run::row_of(const std::vector<int> &literals) const {
    Row row;
    for (int literal : literals) {
        Literal l = literal_of(literal);
        (l.is_negative ? row.negative : row.positive) |= l.bit;
    }
    return row;
}
Clause Run::clause_of_row(const Row &row) const {
    std::vector<int> literals;
    for (size_t at = 0; at < prefix_.size(); at++) {
        if (row.positive >> slots_[at] & 1) literals.push_back(prefix_[at].variable);
        if (row.negative >> slots_[at] & 1) literals.push_back(-prefix_[at].variable);
    }
    return clause_of(literals);
}
size_t Run::place_of(const Row &row) const {
    for (size_t at = 0; at < clauses_.size(); at++)
        if (clauses_[at].row == row) return at;
    return NOWHERE;
}
size_t Run::place_of_step(const Step &step) const {
    const Row row = row_of(step.literals);
    if (step.number == 0) return place_of(row);
    for (size_t at = 0; at < clauses_.size(); at++)
        if (clauses_[at].number == step.number) return clauses_[at].row == row ? at : NOWHERE;
    return NOWHERE;
}
Run::Row Run::without(Row row, const Literal &l) {
    (l.is_negative ? row.negative : row.positive) &= ~l.bit;
    return row;
}
Run::Row Run::without_negation(Row row, const Literal &l) {
    (l.is_negative ? row.positive : row.negative) &= ~l.bit;
    return row;
}
Run::Row Run::outer_clause(const Row &row, const Literal &l) const {
    return without_negation({row.positive & outer_[l.slot], row.negative & outer_[l.slot]}, l);
}
bool Run::has_empty_clause() const { return place_of(Row()) != NOWHERE; }
Formula Run::formula() const {
    Formula formula{prefix_, {}};
    for (const Numbered &clause : clauses_) formula.matrix.push_back(clause_of_row(clause.row));
    return formula;
}

/* --- what is implied --- */
/* of a set, whether it has one member at most */
static bool is_one_at_most(Set set) { return (set & (set - 1)) == 0; }

bool Run::implied(const Row &row, size_t skipped) const {
    if (row.is_tautology()) return true;
    Set is_true = row.negative, is_false = row.positive;
    for (bool is_changed = true; is_changed;) {
        is_changed = false;
        for (size_t at = 0; at < clauses_.size(); at++) {
            if (at == skipped) continue;
            const Set positive = clauses_[at].row.positive & ~is_false, negative = clauses_[at].row.negative & ~is_true;
            if (!positive && !negative) return true;
            if ((positive && negative) || !is_one_at_most(positive | negative)) continue;
            if ((positive & ~is_true) || (negative & ~is_false)) is_changed = true;
            is_true |= positive, is_false |= negative;
        }
    }
    return false;
}
bool Run::pivot(const Row &row, const Literal &l, size_t skipped) const {
    for (size_t at = 0; at < clauses_.size(); at++)
        if (at != skipped && has_negation(clauses_[at].row, l) && !implied(row.joined(outer_clause(clauses_[at].row, l)), skipped))
            return false;
    return true;
}
bool Run::reducible(const Row &row, const Literal &l, size_t skipped) const {
    std::vector<Row> waiting{row};
    std::vector<bool> is_reached(clauses_.size(), false);
    const Set inner = existentials_ & ~outer_[l.slot];
    while (!waiting.empty()) {
        const Row here = waiting.back();
        waiting.pop_back();
        if (has_negation(here, l)) return false;
        for (size_t at = 0; at < clauses_.size(); at++) {
            const Row &other = clauses_[at].row;
            if (at == skipped || is_reached[at] || has(other, l)) continue;
            if (!((here.positive & inner & other.negative) | (here.negative & inner & other.positive))) continue;
            is_reached[at] = true;
            waiting.push_back(other);
        }
    }
    return true;
}

/* --- causes --- */
int Run::cause_of_variables(const Step &step) const {
    if (step.kind == Kind::Fresh) {
        const int fresh = step.literals[0];
        return quantifier_of(fresh) || fresh > MOST_VARIABLES || quantifier_of(step.literals[1]) != 'e' ? 6 : 0;
    }
    if (!are_bound(step.literals)) return 2;
    if (step.kind != Kind::Remove) return 0;
    const Set bit = literal_of(step.literals[0]).bit;
    for (const Numbered &clause : clauses_)
        if ((clause.row.positive | clause.row.negative) & bit) return 7;
    return 0;
}
int Run::making_cause(const Step &step) {
    if (int cause = cause_of_variables(step)) return cause;
    return step.names_clause() && place_of_step(step) == NOWHERE ? 3 : 0;
}
int Run::hinted_making_cause(const Step &step) { return making_cause(step); }

int Run::cause_of_drop(const Row &row, const Literal &l, size_t skipped) {
    if (existentials_ & l.bit) return 5;
    if (!has_negation(row, l) && pivot(without(row, l), l, skipped)) return reason_ = Reason::Pivot, 0;
    if (!reducible(row, l, skipped)) return 5;
    const bool is_plain = !((row.positive | row.negative) & existentials_ & ~outer_[l.slot]) && !has_negation(row, l);
    reason_ = is_plain ? Reason::Reach : Reason::ExtendedReach;
    return 0;
}
int Run::cause(const Step &step) {
    reason_ = Reason::None;
    if (int cause = making_cause(step)) return cause;
    if (!step.is_of_clause()) return 0;
    const Row row = row_of(step.literals);
    const size_t skipped = step.names_clause() ? place_of_step(step) : NOWHERE;
    if (step.kind == Kind::Drop) return cause_of_drop(row, literal_of(step.first()), skipped);
    if (implied(row, skipped)) return reason_ = Reason::Implied, 0;
    if (step.literals.empty()) return 4;
    const Literal l = literal_of(step.first());
    if (!(existentials_ & l.bit) || !pivot(row, l, skipped)) return 4;
    return reason_ = Reason::Pivot, 0;
}

/* --- hints --- */
bool Run::chained(const Row &row, size_t skipped, const std::vector<int64_t> &hints) const {
    if (row.is_tautology()) return hints.empty();
    Set is_true = row.negative, is_false = row.positive;
    for (size_t place = 0; place < hints.size(); place++) {
        size_t at = 0;
        while (at < clauses_.size() && clauses_[at].number != hints[place]) at++;
        if (at == clauses_.size() || at == skipped) return false;
        const Set positive = clauses_[at].row.positive & ~is_false, negative = clauses_[at].row.negative & ~is_true;
        if (!positive && !negative) return place + 1 == hints.size();
        if ((positive && negative) || !is_one_at_most(positive | negative)) return false;
        is_true |= positive, is_false |= negative;
    }
    return false;
}
bool Run::shown(const Step &step, const Row &row, size_t skipped) const {
    const Proof &proof = step.proof;
    if (proof.kind == 1) return step.kind != Kind::Drop && chained(row, skipped, proof.groups[0].hints);
    if (proof.kind != 2 || step.literals.empty()) return false;
    const Literal l = literal_of(step.first());
    const bool is_drop = step.kind == Kind::Drop, is_existential = (existentials_ & l.bit) != 0;
    if (is_existential == is_drop || (is_drop && has_negation(row, l))) return false;
    const Row start = is_drop ? without(row, l) : row;
    size_t group = 0;
    for (size_t at = 0; at < clauses_.size(); at++) {
        if (at == skipped || !has_negation(clauses_[at].row, l)) continue;
        if (group == proof.groups.size() || proof.groups[group].target != clauses_[at].number) return false;
        if (!chained(start.joined(outer_clause(clauses_[at].row, l)), skipped, proof.groups[group].hints)) return false;
        group++;
    }
    return group == proof.groups.size();
}
int Run::hinted_cause(const Step &step) {
    reason_ = Reason::None;
    if (int cause = hinted_making_cause(step)) return cause;
    if (!step.is_of_clause()) return 0;
    const Row row = row_of(step.literals);
    const size_t skipped = step.names_clause() ? place_of_step(step) : NOWHERE;
    reason_ = step.proof.kind == 1 ? Reason::Implied : step.proof.kind == 2 ? Reason::Pivot : Reason::Reach;
    if (step.kind == Kind::Drop) {
        const Literal l = literal_of(step.first());
        if (existentials_ & l.bit) return 5;
        if (step.proof.kind == 3) return reducible(row, l, skipped) ? 0 : 5;
    }
    return shown(step, row, skipped) ? 0 : 12;
}

/* --- what a step makes --- */
void Run::make(const Step &step) {
    if (step.kind == Kind::Add) {
        clauses_.push_back({next_++, row_of(step.literals)});
    } else if (step.kind == Kind::Delete) {
        clauses_.erase(clauses_.begin() + static_cast<std::ptrdiff_t>(place_of_step(step)));
    } else if (step.kind == Kind::Drop) {
        Numbered &clause = clauses_[place_of_step(step)];
        clause.row = without(clause.row, literal_of(step.first()));
    } else if (step.kind == Kind::Fresh) {
        size_t at = 0;
        while (prefix_[at].variable != step.literals[1]) at++;
        const int slot = take_slot(step.literals[0]);
        prefix_.insert(prefix_.begin() + static_cast<std::ptrdiff_t>(at) + 1, {'e', step.literals[0]});
        slots_.insert(slots_.begin() + static_cast<std::ptrdiff_t>(at) + 1, slot);
        order();
    } else {
        size_t at = 0;
        while (prefix_[at].variable != step.literals[0]) at++;
        variables_[slots_[at]] = 0;
        prefix_.erase(prefix_.begin() + static_cast<std::ptrdiff_t>(at));
        slots_.erase(slots_.begin() + static_cast<std::ptrdiff_t>(at));
        order();
    }
}

/* blocks as sets */
static std::vector<std::pair<char, std::vector<int>>> blocks_of(const std::vector<Bound> &prefix) {
    std::vector<std::pair<char, std::vector<int>>> blocks;
    for (const Bound &bound : prefix) {
        if (blocks.empty() || blocks.back().first != bound.quantifier) blocks.push_back({bound.quantifier, {}});
        blocks.back().second.push_back(bound.variable);
    }
    for (auto &block : blocks) std::sort(block.second.begin(), block.second.end());
    return blocks;
}
int Run::cause_at_end(const Formula &output) const {
    if (blocks_of(prefix_) != blocks_of(output.prefix)) return 9;
    std::vector<Row> mine, wanted;
    for (const Numbered &clause : clauses_) mine.push_back(clause.row);
    for (const Clause &clause : output.matrix) wanted.push_back(row_of(clause));
    std::sort(mine.begin(), mine.end());
    std::sort(wanted.begin(), wanted.end());
    return mine == wanted ? 0 : 10;
}

/* --- for what is carried back --- */
std::vector<Clause> Run::outer_clauses(const Step &step) const {
    const Literal l = literal_of(step.first());
    const size_t skipped = step.names_clause() ? place_of_step(step) : NOWHERE;
    std::vector<Clause> outer;
    for (size_t at = 0; at < clauses_.size(); at++)
        if (at != skipped && has_negation(clauses_[at].row, l)) outer.push_back(clause_of_row(outer_clause(clauses_[at].row, l)));
    return outer;
}
bool Run::is_implied(const Step &step) const { return implied(row_of(step.literals), step.names_clause() ? place_of_step(step) : NOWHERE); }
bool Run::is_drop_by_pivot(const Step &step) const {
    const Row row = row_of(step.literals);
    const Literal l = literal_of(step.first());
    return !has_negation(row, l) && pivot(without(row, l), l, place_of_step(step));
}
bool Run::is_extended(const Step &step) const {
    const Row row = row_of(step.literals);
    const Literal l = literal_of(step.first());
    const bool is_plain = !((row.positive | row.negative) & existentials_ & ~outer_[l.slot]) && !has_negation(row, l);
    return !is_plain && !is_drop_by_pivot(step);
}

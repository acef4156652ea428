/* Logs by chance: of steps that are tried, those that are valid are taken. */
#include "judge.h"
#include "making.h"
#include <algorithm>
#include <cstdlib>

static std::vector<int> variables_of(const Run &run) {
    std::vector<int> variables;
    for (const Bound &bound : run.prefix()) variables.push_back(bound.variable);
    if (variables.empty()) variables.push_back(1);
    return variables;
}
static int fresh_number(Chance &chance, const std::vector<int> &variables) {
    const int greatest = *std::max_element(variables.begin(), variables.end());
    if (chance.odds(0.0005)) return 16777215; /* tables of that size cost time */
    if (chance.odds(0.002)) return 524288;
    return chance.odds(0.9) ? greatest + 1 : chance.among({greatest, 3000, 16777216, 1});
}
/* two clauses joined without a literal and its negation, and now and then without another one */
static std::vector<int> resolvent(Chance &chance, const std::vector<Clause> &matrix) {
    Clause one = matrix.empty() ? Clause() : chance.of(matrix), other = matrix.empty() ? Clause() : chance.of(matrix);
    std::vector<int> clash, row = one;
    for (int k : one)
        if (holds(other, -k)) clash.push_back(k);
    if (!clash.empty()) {
        const int k = chance.of(clash);
        row.insert(row.end(), other.begin(), other.end());
        row.erase(std::remove_if(row.begin(), row.end(), [k](int l) { return std::abs(l) == std::abs(k); }), row.end());
    }
    chance.shuffle(row);
    if (!row.empty() && chance.odds(0.3)) row.pop_back();
    return row;
}

static Step some_step(Chance &chance, const Run &run, const std::vector<Clause> &matrix) {
    const std::vector<int> variables = variables_of(run);
    Step step;
    Clause clause = matrix.empty() ? Clause() : chance.of(matrix);
    chance.shuffle(clause);
    step.kind = chance.among(
        {Kind::Add, Kind::Add, Kind::Add, Kind::Delete, Kind::Delete, Kind::Delete, Kind::Drop, Kind::Drop, Kind::Fresh, Kind::Remove});
    step.literals = clause;
    if (step.kind == Kind::Add) {
        const size_t way = chance.below(4);
        if (way == 0) step.literals = resolvent(chance, matrix);
        if (way == 1)
            step.literals.insert(step.literals.begin() + static_cast<std::ptrdiff_t>(chance.below(clause.size() + 1)),
                                 signed_of(chance, variables));
        if (way == 2)
            for (step.literals.clear(); step.literals.size() < 3 && chance.odds(0.8);)
                step.literals.push_back(signed_of(chance, variables));
    } else if (step.kind == Kind::Fresh) {
        step.literals = {fresh_number(chance, variables), chance.of(variables)};
    } else if (step.kind == Kind::Remove) {
        step.literals = {chance.of(variables)};
    } else if (step.kind == Kind::Drop && clause.empty()) {
        step.literals = {signed_of(chance, variables)};
    }
    return step;
}
/* the text of a step, in which a literal may be repeated */
static Bytes written(Chance &chance, Step step) {
    auto &literals = step.literals;
    if (step.is_of_clause() && !literals.empty() && chance.odds(0.03))
        literals.insert(literals.begin() + static_cast<std::ptrdiff_t>(1 + chance.below(literals.size())), chance.of(literals));
    return step_text(step);
}
Bytes some_step_text(Chance &chance, const Formula &formula) {
    const Run run(formula);
    return step_text(some_step(chance, run, formula.matrix));
}

Walk some_walk(Chance &chance, const Formula &start) {
    Run run(start);
    Walk walk;
    std::vector<Clause> matrix = run.formula().matrix;
    for (size_t left = 1 + chance.below(60); left > 0; left--) {
        const Step step = some_step(chance, run, matrix);
        if (run.cause(step) != 0) continue;
        walk.log += written(chance, step);
        run.make(step);
        matrix = run.formula().matrix;
    }
    for (const Bound &bound : run.formula().prefix) {
        Step step;
        step.kind = Kind::Remove, step.literals = {bound.variable};
        if (run.cause(step) != 0 || chance.odds(0.2)) continue;
        walk.log += step_text(step);
        run.make(step);
    }
    walk.end = canonical(run.formula());
    return walk;
}

/* deletions need no reason; the last step is the empty clause, where it comes */
Bytes some_refutation(Chance &chance, const Formula &start) {
    Run run(start);
    Bytes log;
    std::vector<Clause> matrix = run.formula().matrix;
    Step empty;
    for (size_t left = 1 + chance.below(40); left > 0; left--) {
        Step step;
        if (chance.odds(0.6)) step.literals = resolvent(chance, matrix);
        else step = some_step(chance, run, matrix);
        const int cause = step.kind == Kind::Delete && chance.odds(0.3) ? run.making_cause(step) : run.cause(step);
        if (cause == 0) {
            log += written(chance, step);
            run.make(step);
            matrix = run.formula().matrix;
        }
        if (run.cause(empty) == 0 && chance.odds(0.7)) return log + step_text(empty);
    }
    return log;
}

Bytes padding(Chance &chance, const Formula &start) {
    if (start.prefix.empty()) return "";
    const Bytes v = number_text(start.prefix[chance.below(start.prefix.size())].variable);
    const size_t steps = 1000 * chance.among({size_t(1), size_t(1), size_t(1), size_t(2), size_t(5)}) -
                         chance.among({size_t(0), size_t(0), size_t(2), size_t(4), size_t(6), size_t(20)});
    Bytes text;
    for (size_t pairs = steps / 2; pairs > 0; pairs--) text += v + " -" + v + " 0\nd " + v + " -" + v + " 0\n";
    return text;
}

static void add_group(Bytes &text, uint64_t value) {
    for (; value >= 128; value >>= 7) text += static_cast<char>((value & 127) | 128);
    text += static_cast<char>(value);
}
Bytes in_bytes(View log) {
    Bytes text;
    const auto steps = text_steps(log);
    Step step;
    while (steps->next(step)) {
        if (step.kind != Kind::Add && step.kind != Kind::Delete) continue;
        text += static_cast<char>(step.kind);
        for (int k : step.literals) add_group(text, 2 * static_cast<uint64_t>(std::abs(static_cast<int64_t>(k))) + (k < 0));
        text += '\0';
    }
    return text;
}

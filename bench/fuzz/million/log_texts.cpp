/* Logs are read and written again. */
#include "log_texts.h"
#include "formula.h"
#include <algorithm>

static Bytes step_alone(const Step &step) {
    Step canonical = step;
    if (step.is_of_clause() && !step.literals.empty()) {
        canonical.literals = clause_of(step.literals);
        canonical.literals.erase(std::find(canonical.literals.begin(), canonical.literals.end(), step.first()));
        canonical.literals.insert(canonical.literals.begin(), step.first());
    }
    return step_text(canonical);
}

Bytes canonical_text(const Step &step) {
    Bytes text = step_alone(step);
    if (step.proof.kind == 0) return text;
    text.back() = ' ';
    if (step.names_clause()) text += number_text(step.number) + " ";
    text += number_text(step.proof.kind) + " ";
    for (const Group &group : step.proof.groups) {
        if (step.proof.kind == 2) text += number_text(group.target) + " ";
        for (int64_t hint : group.hints) text += number_text(hint) + " ";
        if (step.proof.kind == 2) text += "0 ";
    }
    return text + "0\n";
}

bool is_canonical_log(View text, bool has_hints) {
    const auto steps = has_hints ? hinted_steps(text) : text_steps(text);
    Bytes canonical = has_hints ? "p qrat 2\n" : "";
    Step step;
    while (steps->next(step)) canonical += canonical_text(step);
    return canonical == text;
}

bool has_steps_of(Steps &steps, View hinted, uint64_t most) {
    const auto others = hinted_steps(hinted);
    Step step, other;
    for (uint64_t count = 0; count < most && steps.next(step); count++)
        if (!others->next(other) || step_alone(step) != step_alone(other)) return false;
    return !others->next(other);
}

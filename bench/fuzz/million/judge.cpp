/* A log is judged step by step; the first one that is none or is not valid ends it. */
#include "judge.h"

static const char KINDS[] = "aduer";
static size_t index_of(Kind kind) { return static_cast<size_t>(View(KINDS).find(static_cast<char>(kind))); }
const char *kind_name(size_t kind) {
    static const char *const names[] = {"add", "delete", "drop", "fresh", "remove"};
    return names[kind];
}
const char *reason_name(size_t reason) {
    static const char *const names[] = {"implied", "by pivot", "by reach", "by extended reach", ""};
    return names[reason];
}

static Bytes at_line(uint64_t line, int cause) { return "line " + std::to_string(line) + " cause " + std::to_string(cause); }
static Bytes at_end(int cause) { return "end cause " + std::to_string(cause); }

/* what is kept of a valid step before it is made */
static void note(Trail &trail, const Run &run, const Step &step) {
    using What = Entry::What;
    const int first = step.first();
    if (step.kind == Kind::Fresh) {
        trail.undo.push_back({What::Fresh, first, {}, {}, {}});
        trail.reversals.push_back({What::Fresh, first, {}, {}, {}});
    } else if (step.kind == Kind::Remove) {
        (run.quantifier_of(first) == 'e' ? trail.undo : trail.reversals).push_back({What::Removed, first, {}, {}, {}});
    } else if (step.kind != Kind::Drop) {
        if (step.literals.empty() || run.is_implied(step)) return;
        const bool is_delete = step.kind == Kind::Delete;
        (is_delete ? trail.undo : trail.reversals)
            .push_back({is_delete ? What::Pivot : What::Added, first, run.outer_clauses(step), {}, {}});
    } else if (run.is_drop_by_pivot(step)) {
        trail.reversals.push_back({What::Turned, first, run.outer_clauses(step), {}, {}});
    } else {
        Entry plain{What::Plain, first, {}, {}, {}};
        for (int k : clause_of(step.literals)) {
            if (holds(step.literals, -k)) return; /* a tautology asks for nothing */
            if (k != first) (run.is_outer_or_same(std::abs(k), std::abs(first)) ? plain.same : plain.inner).push_back(k);
        }
        trail.reversals.push_back(plain);
    }
}

namespace {

/* the loop over the steps, for logs and for refutations */
class Judge {
  public:
    Judge(const Formula &input, Part part, bool keeps_trail) : run_(input), part_(part), keeps_trail_(keeps_trail) {}
    Run &run() { return run_; }
    Judged judged;

    bool take(const Step &step, bool has_hints, bool may_delete) {
        const bool is_own = part_.is_own(place_);
        const bool is_judged = is_own && !(may_delete && step.kind == Kind::Delete);
        const int cause = has_hints ? (is_judged ? run_.hinted_cause(step) : run_.hinted_making_cause(step))
                                    : (is_judged ? run_.cause(step) : run_.making_cause(step));
        if (cause) return judged.refusal = at_line(step.line, cause), false;
        if (is_judged) judged.kinds[index_of(step.kind)][static_cast<size_t>(run_.reason())]++;
        if (is_judged && step.kind == Kind::Drop && !judged.extended)
            if (has_hints ? run_.is_extended(step) : run_.reason() == Reason::ExtendedReach) judged.extended = step.line;
        if (keeps_trail_) note(judged.trail, run_, step); /* behind an extended drop no reversals are asked for */
        run_.make(step);
        judged.steps += is_own;
        place_++;
        return true;
    }

  private:
    Run run_;
    Part part_;
    bool keeps_trail_;
    uint64_t place_ = 0;
};

} // namespace

Judged judge(const Formula &input, const Formula &output, View log, Profile profile, Part part, bool keeps_trail) {
    Judge judge(input, part, keeps_trail);
    const bool has_hints = profile == Profile::Any && is_hinted(log);
    const auto steps = has_hints ? hinted_steps(log) : text_steps(log);
    try {
        Step step;
        while (steps->next(step))
            if (!judge.take(step, has_hints, false)) return std::move(judge.judged);
    } catch (const Refused &refused) {
        judge.judged.refusal = at_line(refused.line, refused.cause);
        return std::move(judge.judged);
    }
    if (int cause = judge.run().cause_at_end(output)) judge.judged.refusal = at_end(cause);
    return std::move(judge.judged);
}

Judged refute(const Formula &input, Steps &steps, Part part, bool keeps_trail, bool has_hints) {
    Judge judge(input, part, keeps_trail);
    try {
        Step step;
        while (!judge.run().has_empty_clause()) {
            if (!steps.next(step)) {
                judge.judged.refusal = at_end(11);
                break;
            }
            if (!has_hints) step.number = 0; /* its clause is the one with these literals */
            if (!judge.take(step, has_hints, true)) break;
        }
    } catch (const Refused &refused) {
        judge.judged.refusal = at_line(refused.line, refused.cause);
    }
    return std::move(judge.judged);
}

Applied apply(const Formula &input, View log) {
    Run run(input);
    Whole whole = whole_steps(log);
    Applied applied;
    for (Step &step : whole.steps) {
        step.number = 0; /* no step is judged: its clause is the one with these literals */
        if (int cause = run.making_cause(step)) return applied.refusal = at_line(step.line, cause), applied;
        run.make(step);
    }
    if (whole.is_bad) return applied.refusal = at_line(whole.line, 1), applied;
    applied.formula = run.formula();
    applied.steps = whole.steps.size();
    applied.broken = whole.line;
    return applied;
}

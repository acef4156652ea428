/* One function a command. Each ends by Told where the answer has to be one line, by Wrong where something else is wanted, and otherwise
 * when all is as it should be. The order of refusals is that of the files: IN, OUT, LOG, circuits. */
#include "commands.h"
#include "back.h"
#include "circuits.h"
#include "faults.h"
#include "generator.h"
#include "library.h"
#include "log_texts.h"
#include "moves.h"
#include "search.h"
#include "settled.h"
#include "trace.h"
#include "wanted.h"
#include <algorithm>


namespace {

/* the command has to end here */
struct Told {
    int status;
    Bytes line;
};
/* the number of a line that is this word and a number */
uint64_t number_behind(const Bytes &line, const Bytes &word) {
    int64_t value = -1;
    const bool fits = line.size() > word.size() + 1 && line.substr(0, word.size() + 1) == word + " " &&
                      plain_number_of(View(line).substr(word.size() + 1), value);
    want(fits, "a line '" + word + " N'");
    return static_cast<uint64_t>(value);
}

class Judging {
  public:
    Judging(const Case &what, const Call &call, const Answer &answer, Notes &notes)
        : case_(what), call_(call), answer_(answer), notes_(notes) {}
    void judge() {
        static const std::map<Bytes, void (Judging::*)()> all = {
            {"simplify", &Judging::simplify}, {"check", &Judging::check},   {"annotate", &Judging::annotate},
            {"shown", &Judging::shown},
            {"rebuild", &Judging::rebuild},   {"refute", &Judging::refute}, {"validate", &Judging::validate},
            {"miter", &Judging::miter},       {"solve", &Judging::solve},   {"extract", &Judging::extract},
            {"disprove", &Judging::disprove}, {"apply", &Judging::apply},   {"gen", &Judging::gen},
            {"demo", &Judging::demo}};
        (this->*all.at(call_.verb))();
    }

  private:
    const Case &case_;
    const Call &call_;
    const Answer &answer_;
    Notes &notes_;

    /* --- files --- */
    const Bytes &held(size_t place) const { return held_as(case_, call_.reads[place]); }
    static const Bytes &held_as(const Case &what, const Bytes &name) {
        static const Bytes nothing;
        auto file = what.files.find(name);
        return file == what.files.end() ? nothing : file->second;
    }
    /* a file that the command makes; none and one of no bytes are the same here */
    const Bytes &made(size_t place) const {
        static const Bytes nothing;
        auto file = answer_.made.find(call_.makes[place]);
        return file == answer_.made.end() ? nothing : file->second;
    }
    /* one whose name was given is not told */
    bool is_told(size_t place) const { return !case_.files.count(call_.makes[place]); }
    bool are_all_told() const {
        for (size_t place = 0; place < call_.makes.size(); place++)
            if (!is_told(place)) return false;
        return true;
    }
    Formula formula_in(size_t place, const char *role) const {
        try {
            return read_formula(held(place));
        } catch (const Refused &refused) {
            throw Told{3,
                       Bytes("input ") + role + " line " + number(refused.line) + " cause " + number(static_cast<uint64_t>(refused.cause))};
        }
    }
    Circuits circuits_in(size_t place, const Formula &formula, char owner) const {
        try {
            Circuits found = read_circuits(held(place));
            const Bytes why = misfit(formula, found, owner);
            if (!why.empty()) throw Told{7, "circuits " + why};
            return found;
        } catch (const Refused &refused) {
            throw Told{7, "circuits line " + number(refused.line) + " cause " + number(static_cast<uint64_t>(refused.cause))};
        }
    }
    Formula made_formula(size_t place) const {
        const Formula found = read_formula(made(place));
        want(canonical(found) == made(place), "the canonical text in " + call_.makes[place]);
        return found;
    }
    void count_steps(const Judged &judged) {
        for (size_t kind = 0; kind < 5; kind++)
            for (size_t reason = 0; reason < 5; reason++) notes_.steps[kind][reason] += judged.kinds[kind][reason];
    }
    Part part() const { return call_.parts ? Part{call_.part, call_.parts} : Part{}; }

    struct Checked {
        Formula start, end;
        Judged judged;
    };
    Checked log_in(Profile profile, Part part, bool keeps_trail = false) {
        Checked found{formula_in(0, "IN"), formula_in(1, "OUT"), {}};
        found.judged = ::judge(found.start, found.end, held(2), profile, part, keeps_trail);
        count_steps(found.judged);
        if (!found.judged.refusal.empty()) throw Told{1, "refused " + found.judged.refusal};
        return found;
    }
    void want_one_truth(const Formula &start, const Formula &end) {
        if (!is_decided_by_tables(start) || !is_decided_by_tables(end))
            return notes_.seen.push_back("truth not decided: too many variables");
        want(is_true(start) == is_true(end), "one truth value");
    }

    /* --- circuits --- */
    Circuits made_circuits(size_t place, const Formula &formula, char owner, uint64_t gates) const {
        const Circuits found = read_circuits(made(place));
        std::vector<int> inputs, outputs, named;
        for (const Bound &bound : formula.prefix) (bound.quantifier == owner ? outputs : inputs).push_back(bound.variable);
        for (const auto &input : found.inputs) named.push_back(input.name);
        want(named == inputs, "inputs in the order of the prefix");
        named.clear();
        for (const auto &output : found.outputs) named.push_back(output.name);
        want(named == outputs, "outputs in the order of the prefix");
        want(misfit(formula, found, owner).empty(), "circuits that fit");
        want(gates == UNTOLD || found.gates.size() == gates, "as many gates as are told");
        want(are_all_gates_read(found), "no gate that no output needs");
        want(are_in_order(found), "gates numbered on from the inputs");
        want(::canonical(found) == made(place), "the canonical text of circuits");
        return found;
    }
    static constexpr uint64_t UNTOLD = ~uint64_t(0);
    static bool are_in_order(const Circuits &found) {
        for (size_t at = 0; at < found.inputs.size(); at++)
            if (found.inputs[at].literal != 2 * (at + 1)) return false;
        for (size_t at = 0; at < found.gates.size(); at++) {
            const Gate &gate = found.gates[found.written[at]];
            if (gate.literal != 2 * (found.inputs.size() + at + 1) || gate.left >= gate.literal) return false;
        }
        return true;
    }
    void want_functions(size_t place, const Formula &formula, char owner, uint64_t gates) {
        if (!is_told(place)) return;
        const Circuits found = made_circuits(place, formula, owner, gates);
        want(are_functions(formula, found, owner), owner == 'e' ? "Skolem functions of IN" : "Herbrand functions of IN");
    }
    /* what `rebuild` carries back has the values of the undo list, under every assignment */
    void want_values_back(const Checked &log, const Circuits &given, const Circuits &found) {
        if (!has_one_role_each(log.start, log.judged.trail.undo)) return;
        size_t variables;
        Values wanted = values_under(log.start, {}, 'e', variables);
        for (auto &[name, table] : values_of(given, wanted, variables)) wanted[name] = table;
        wanted = carried_back(std::move(wanted), log.judged.trail.undo, variables);
        const Values values = values_under(log.start, found, 'e', variables);
        for (const auto &[name, table] : values)
            want(wanted.at(name) == table, "the values of the undo list for " + number(static_cast<uint64_t>(name)));
        notes_.seen.push_back("circuits compared with the undo list, for all values");
    }
    void want_values_forth(const Checked &log, const Circuits &given, const Circuits &found) {
        if (!has_one_role_each(log.start, log.judged.trail.reversals)) return;
        std::map<int, size_t> inputs;
        for (const Bound &bound : log.start.prefix)
            if (bound.quantifier == 'e') inputs.emplace(bound.variable, inputs.size());
        for (const Entry &entry : log.judged.trail.reversals)
            if (entry.what == Entry::What::Fresh) inputs.emplace(entry.literal, inputs.size());
        const size_t variables = inputs.size();
        if (variables > MOST_FORTH) return;
        Values wanted;
        for (const auto &[name, index] : inputs) wanted[name] = Table::of_variable(variables, index);
        Values values = wanted;
        for (auto &[name, table] : values_of(given, wanted, variables)) wanted[name] = table;
        wanted = carried_forth(std::move(wanted), inputs, log.judged.trail.reversals, variables);
        for (const auto &[name, table] : values_of(found, values, variables))
            want(wanted.at(name) == table, "the values of the reversals for " + number(static_cast<uint64_t>(name)));
        notes_.seen.push_back("circuits compared with the reversals, for all values");
    }
    static constexpr size_t MOST_FORTH = 10;

    /* --- commands on formulas --- */
    void judge_simplified(const Formula &start, const Bytes &line, int status, size_t out, size_t log, int64_t grow, int64_t expand) {
        static const std::map<int, Bytes> words = {{0, "settled"}, {10, "true"}, {20, "false"}, {2, "spent"}};
        const Formula end = made_formula(out);
        const int64_t first = measure(start, grow, expand), last = measure(end, grow, expand);
        want(words.count(status), "status 0, 2, 10 or 20");
        const Bytes wanted = words.at(status) + " " + std::to_string(first) + " " + std::to_string(last);
        want(line == wanted, "'" + wanted + "'");
        want((status == 10) == end.matrix.empty(), "true where no clause is left");
        want((status == 20) == (end.matrix.size() == 1 && end.matrix[0].empty()), "false where the empty clause is left");
        want(status != 2 || (call_.budget && static_cast<uint64_t>(first - last) >= *call_.budget),
             "spent where the budget is");
        want_one_truth(start, end);
        want_settled(end, status, grow, expand);
        if (!is_told(log)) return;
        const Judged judged = ::judge(start, end, made(log), Profile::Plain);
        count_steps(judged);
        want(judged.refusal.empty(), "a right log, which is refused: " + judged.refusal);
        want(is_canonical_log(made(log), false), "the canonical text of LOG");
    }
    /* by a search for targets of each rule */
    void want_settled(const Formula &end, int status, int64_t grow, int64_t expand) {
        want(is_swept(end), "a formula that is swept");
        if (end.prefix.size() > MOST_SETTLED || end.matrix.size() > 120) return;
        const char *target = target_of(end, grow, expand);
        if (status == 2) {
            want(target, "a rule that applies, where the run is spent");
            notes_.seen.push_back("spent: a rule applies");
        } else {
            want(!target, Bytes("no target of ") + (target ? target : "") + " in a settled formula");
            notes_.seen.push_back(status == 0 ? "settled: no rule applies, with clauses left" : "settled: no rule applies");
        }
    }
    static constexpr size_t MOST_SETTLED = 40;
    void simplify() {
        const Formula start = formula_in(0, "IN");
        if (!is_told(0)) return;
        judge_simplified(start, answer_.line, answer_.status, 0, 1, static_cast<int64_t>(call_.grow), static_cast<int64_t>(call_.expand));
    }
    void solve() {
        const Formula start = formula_in(0, "IN");
        if (!are_all_told()) return;
        const Formula end = made_formula(0);
        want_one_truth(start, end);
        want_settled(end, 0, 0, 16);
        const Judged judged = ::judge(start, end, made(1), Profile::Plain);
        count_steps(judged);
        want(judged.refusal.empty(), "a right log, which is refused: " + judged.refusal);
        const Decided decided = decide(end);
        if (decided.is_known && call_.budget && *call_.budget < decided.decisions) throw Told{12, "unknown"};
        if (!is_decided_by_tables(start)) return notes_.seen.push_back("truth not decided: too many variables");
        if (!is_true(start)) throw Told{20, "false"};
        want(answer_.status == 10, "status 10");
        want_functions(2, start, 'e', number_behind(answer_.line, "true"));
    }
    void gen() {
        if (is_told(0)) want(made(0) == canonical(generated(call_.seed, call_.size)), "the formula of this seed");
        throw Told{0, "generated " + number(call_.size)};
    }
    void demo() {
        const Formula start = generated(call_.seed, call_.size);
        if (!are_all_told()) return;
        want(made(0) == canonical(start), "the formula of this seed");
        const Bytes generated = "generated " + number(call_.size) + "\n";
        want(answer_.status == 0 && answer_.line.substr(0, generated.size()) == generated, "status 0 and '" + generated + "' first");
        const Bytes rest = answer_.line.substr(generated.size());
        const size_t end = rest.find('\n');
        want(end != Bytes::npos, "three lines");
        const Formula last = made_formula(1);
        const int status = last.matrix.empty() ? 10 : last.matrix.size() == 1 && last.matrix[0].empty() ? 20 : 0;
        judge_simplified(start, rest.substr(0, end), status, 1, 2, 0, 16);
        const Judged judged = ::judge(start, last, made(2), Profile::Plain);
        want(rest.substr(end + 1) == "verified " + number(judged.steps), "'verified " + number(judged.steps) + "'");
    }

    /* --- commands on logs --- */
    void check() {
        const Checked log = log_in(Profile::Any, part());
        if (part().parts == 1) want_one_truth(log.start, log.end);
        throw Told{0, "verified " + number(log.judged.steps)};
    }
    void annotate() {
        const Checked log = log_in(Profile::Plain, part());
        const Bytes line = "annotated " + number(log.judged.steps);
        want(answer_.status == 0 && answer_.line == line, "'" + line + "'");
        if (!is_told(0)) return;
        const Bytes &text = made(0);
        const Bytes whole = whole_of(text, log.judged.steps);
        if (!whole.empty()) want_hints(log, whole);
    }
    /* what all parts make of it, which is as it is where there are no parts; nothing where another part is refused */
    Bytes whole_of(const Bytes &text, uint64_t steps) const {
        if (part().parts == 1) return text;
        /* the lines of a part are no whole log */
        const std::vector<View> lines = lines_with_ends(text);
        want(lines.size() == steps + (part().number == 1), "a line for each step of the part");
        want((!lines.empty() && lines[0] == "p qrat 2\n") == (part().number == 1), "the header in the first part");
        return call_.parts > MOST_JOINED ? Bytes() : joined();
    }
    static constexpr uint64_t MOST_JOINED = 8;
    void want_hints(const Checked &log, const Bytes &text) {
        want(is_hinted(text), "a log with hints");
        const Judged judged = ::judge(log.start, log.end, text, Profile::Any);
        want(judged.refusal.empty(), "a right log with hints, which is refused: " + judged.refusal);
        want(has_steps_of(*text_steps(held(2)), text) && is_canonical_log(text, true), "the steps of LOG, in their canonical text");
        notes_.seen.push_back(call_.parts ? "hints of all parts verified together" : "hints verified");
    }
    /* the header, and 1,000 lines of each part in turn; nothing where another part is refused */
    Bytes joined() const {
        std::vector<Bytes> texts;
        std::vector<std::vector<View>> lines;
        for (uint64_t number = 1; number <= call_.parts; number++) {
            Case other = case_;
            other.fault = Fault();
            /* the last such word: a file may have such a name */
            auto option = std::find_if(other.words.rbegin(), other.words.rend(), [](const Bytes &word) { return word.substr(0, 7) == "--part="; });
            *option = "--part=" + std::to_string(number) + "/" + std::to_string(call_.parts);
            const Answer answer = play(other);
            auto file = answer.made.find(call_.makes[0]);
            if (answer.status != 0) return "";
            texts.push_back(file == answer.made.end() ? Bytes() : file->second);
        }
        for (const Bytes &text : texts) lines.push_back(lines_with_ends(text));
        Bytes found = "p qrat 2\n";
        std::vector<size_t> at(lines.size(), 0);
        at[0] = 1;
        for (size_t place = 0, part = 0; at[part] < lines[part].size(); part = ++place / 1000 % lines.size())
            found += lines[part][at[part]++];
        return found;
    }
    void rebuild() {
        const Checked log = log_in(Profile::Any, {}, true);
        const Circuits given = circuits_in(3, log.end, 'e');
        if (has_empty_clause(log.end)) throw Told{7, "circuits of a false output"};
        want(answer_.status == 0, "status 0");
        const uint64_t gates = number_behind(answer_.line, "rebuilt");
        if (!is_told(0)) return;
        const Circuits found = made_circuits(0, log.start, 'e', gates);
        want(!are_functions(log.end, given, 'e') || are_functions(log.start, found, 'e'), "Skolem functions of IN");
        want_values_back(log, given, found);
    }
    void refute() {
        const Checked log = log_in(Profile::Any, {}, true);
        if (log.judged.extended) throw Told{8, "extended line " + number(log.judged.extended)};
        const Circuits given = circuits_in(3, log.end, 'a');
        if (log.end.matrix.empty()) throw Told{7, "circuits of a true output"};
        want(answer_.status == 0, "status 0");
        const uint64_t gates = number_behind(answer_.line, "refuted");
        if (!is_told(0)) return;
        const Circuits found = made_circuits(0, log.start, 'a', gates);
        want(!are_functions(log.end, given, 'a') || are_functions(log.start, found, 'a'), "Herbrand functions of IN");
        want_values_forth(log, given, found);
    }
    void apply() {
        const Formula start = formula_in(0, "IN");
        const Applied applied = ::apply(start, held(1));
        if (!applied.refusal.empty()) throw Told{1, "refused " + applied.refusal};
        if (is_told(0)) want(Run(applied.formula).cause_at_end(made_formula(0)) == 0, "the formula behind the steps");
        throw Told{0, "applied " + number(applied.steps) + (applied.broken ? " broken line " + number(applied.broken) : "")};
    }
    std::unique_ptr<Steps> proof_steps() const {
        const Bytes &proof = held(1);
        if (call_.binary || is_binary(proof)) return binary_steps(proof);
        return is_hinted(proof) ? hinted_steps(proof) : text_steps(proof);
    }
    /* whether proof parts are looked at */
    bool looks_at_hints(bool has_cert) const {
        return !call_.binary && !is_binary(held(1)) && is_hinted(held(1)) && !has_cert && !call_.parts;
    }
    /* a proof with hints, or a part of it */
    void shown() {
        const Formula start = formula_in(0, "IN");
        Judged judged;
        if (!has_empty_clause(start)) judged = ::refute(start, *proof_steps(), part());
        count_steps(judged);
        if (!judged.refusal.empty()) throw Told{1, "refused " + judged.refusal};
        const Bytes line = "annotated " + number(judged.steps);
        want(answer_.status == 0 && answer_.line == line, "'" + line + "'");
        if (!is_told(0)) return;
        const Bytes whole = whole_of(made(0), judged.steps);
        if (!whole.empty()) want_refutation(start, whole);
    }
    void want_refutation(const Formula &start, const Bytes &text) {
        want(is_hinted(text) && is_canonical_log(text, true), "a log with hints, in its canonical text");
        const Judged judged = ::refute(start, *hinted_steps(text), {}, false, true);
        want(judged.refusal.empty(), "a refutation by hints, which is refused: " + judged.refusal);
        want(has_steps_of(*proof_steps(), text, judged.steps), "the steps of PROOF up to the empty clause, and none behind");
        notes_.seen.push_back(call_.parts ? "hints of all parts of a proof verified together" : "hints of a proof verified");
    }
    void disprove() {
        const Formula start = formula_in(0, "IN");
        const bool has_cert = !call_.makes.empty();
        Judged judged;
        if (!has_empty_clause(start)) {
            judged = ::refute(start, *proof_steps(), part(), has_cert, looks_at_hints(has_cert));
            count_steps(judged);
            if (!judged.refusal.empty()) throw Told{1, "refused " + judged.refusal};
        }
        if (call_.parts) throw Told{0, "verified " + number(judged.steps)};
        if (is_decided_by_tables(start)) want(!is_true(start), "a false formula");
        if (has_cert) {
            if (judged.extended) throw Told{8, "extended line " + number(judged.extended)};
            want_functions(0, start, 'a', UNTOLD);
        }
        throw Told{20, "false " + number(judged.steps)};
    }

    /* --- commands on circuits --- */
    void validate() {
        const Formula start = formula_in(0, "IN");
        const Circuits given = circuits_in(1, start, 'e');
        const Tried tried = try_inputs(start, given);
        want(tried.is_hit != are_functions(start, given, 'e'), "a search that finds what the tables say");
        if (call_.budget && *call_.budget < tried.branches) throw Told{12, "unknown"};
        if (!tried.is_hit) throw Told{0, "valid"};
        Bytes line = "invalid";
        for (int k : tried.counter) line += " " + std::to_string(k);
        throw Told{9, line};
    }
    void miter() {
        const Formula start = formula_in(0, "IN");
        const char owner = call_.herbrand ? 'a' : 'e';
        const Circuits given = circuits_in(1, start, owner);
        if (answer_.line == "circuits too large" && has_variables_near_limit(start)) throw Told{7, answer_.line};
        want(answer_.status == 0, "status 0");
        if (!is_told(0)) return;
        const Formula made = read_formula(this->made(0));
        const Bytes line = "written " + number(made.matrix.size());
        want(answer_.line == line, "'" + line + "'");
        for (const Bound &bound : made.prefix) want(bound.quantifier == 'e', "no sets");
        want_models(start, given, owner, made);
    }
    /* then gates may get no numbers any more */
    static bool has_variables_near_limit(const Formula &formula) {
        return std::any_of(formula.prefix.begin(), formula.prefix.end(),
                           [](const Bound &b) { return b.variable > MOST_VARIABLES - 10000; });
    }
    /* under each assignment of the opponent's variables */
    void want_models(const Formula &start, const Circuits &given, char owner, const Formula &made) {
        size_t variables;
        const Values values = values_under(start, given, owner, variables);
        const Table truth = table_of(start.matrix, values, variables);
        std::vector<int> others;
        for (const Bound &bound : start.prefix)
            if (bound.quantifier != owner) others.push_back(bound.variable);
        bool has_some = false;
        for (size_t a = 0; a < size_t(1) << variables; a++) {
            std::vector<int> literals;
            for (size_t at = 0; at < variables; at++) literals.push_back(a >> at & 1 ? others[at] : -others[at]);
            const bool has_one = has_model(made.matrix, literals);
            want(!has_one || truth.at(a) == (owner == 'a'), "models under which the circuits fail alone");
            has_some = has_some || has_one;
        }
        want(has_some == !truth.is_all(owner == 'e'), "no model exactly where the circuits are right");
    }
    void extract() {
        const Formula start = formula_in(0, "IN");
        const Verdict verdict = judge_trace(start, held(1));
        if (!verdict.refusal.empty()) throw Told{1, "refused " + verdict.refusal};
        if (!verdict.owner) throw Told{12, "unknown"};
        const bool is_sat = verdict.owner == 'e';
        want(answer_.status == (is_sat ? 10 : 20), "a verdict");
        if (is_decided_by_tables(start)) want(is_true(start) == is_sat, "the truth");
        want_functions(0, start, verdict.owner, number_behind(answer_.line, is_sat ? "true" : "false"));
        notes_.seen.push_back(verdict.has_merges ? "traces with long-distance resolution" : "traces without it");
    }
};

/* a line as it is counted: without what is only of this case */
Bytes counted(const Answer &answer) {
    const Bytes &line = answer.line;
    if (line == "no memory" || line.substr(0, 1) == "?") return line[0] == '?' ? "" : line;
    Bytes word = line.substr(0, line.find_first_of(" \n"));
    const size_t cause = line.rfind("cause ");
    if (word == "circuits" && cause == Bytes::npos) {
        if (line.find(" reads ") != Bytes::npos) return word + " V reads U";
        const size_t last = line.find_last_of(' ');
        return line.find_first_of("0123456789") == Bytes::npos ? line : line.substr(0, last) + " V";
    }
    if (word == "input") word = line.substr(0, 8) == "input IN" ? "input IN" : "input OUT";
    if (line.find("broken") != Bytes::npos) word += " broken";
    return cause == Bytes::npos ? word : word + " " + line.substr(cause);
}

/* the files that are made once nothing is refused */
bool has_files_behind_refusals(const Call &call, const Answer &answer) {
    if (call.verb == "simplify" || call.verb == "solve" || call.verb == "gen" || call.verb == "demo") return false;
    return !answer.made.empty();
}
bool is_done(int status) { return status == 0 || status == 10 || status == 20; }

Bytes kind_of(const Case &what, const Call &call) {
    Bytes kind = call.verb == "shown" ? "annotate PROOF" : call.verb;
    if (call.parts) kind += " --part";
    if (call.binary) kind += " --binary";
    if (call.herbrand) kind += " --herbrand";
    if (call.plain) kind += " --plain";
    if (call.verb == "disprove" && !call.makes.empty()) kind += " CERT";
    if (!what.moves.empty()) kind += " (moves)";
    if (what.fault.refuses()) kind += " (memory refused)";
    else if (what.fault.what != Fault::What::None) kind += " (little room)";
    return kind;
}

} // namespace

Bytes judge_answer(const Case &what, const Answer &answer, Notes &notes) {
    const std::optional<Call> call = call_of(what.words);
    notes.kind = call ? kind_of(what, *call) : "(no command)";
    notes.answer = std::to_string(answer.status) + " " + counted(answer);
    if (!answer.wrong.empty()) return answer.wrong;
    if (answer.lost) return "blocks of memory that were not given back: " + number(answer.lost);
    const size_t wrong_line = wrong_move(what.moves);
    if (answer.wrong_line != wrong_line) return "wanted the first wrong line of the moves to be " + number(wrong_line);
    try {
        if (wrong_line) throw Told{64, ""};
        if (what.fault.what == Fault::What::ShortLine || what.fault.what == Fault::What::ShortMade) return judge_short(what, answer), "";
        if (what.fault.refuses() && answer.status == 6) {
            if (call) judge_want_of_memory(what, *call, answer);
            return "";
        }
        if (!std::all_of(what.words.begin(), what.words.end(), is_utf8)) throw Told{64, ""};
        if (!call) throw Told{64, "usage"};
        want(answer.status != 5 && answer.status != 4 && answer.status != 6, "no fault");
        Judging(what, *call, answer, notes).judge();
    } catch (const Told &told) {
        if (answer.status != told.status || answer.line != told.line)
            return "wanted " + std::to_string(told.status) + " '" + told.line + "'";
        if (!is_done(told.status) && call && has_files_behind_refusals(*call, answer))
            return "wanted no file that is made behind all refusals";
        if ((!call || wrong_line) && !answer.made.empty()) return "wanted no file";
    } catch (const Wrong &wrong) {
        return "wanted " + wrong.what;
    } catch (const Refused &refused) {
        return "wanted a file that can be read: line " + number(refused.line) + " cause " + std::to_string(refused.cause);
    } catch (const TooLarge &) {
        notes.seen.push_back("not judged: more than 128 variables at once");
    }
    return "";
}

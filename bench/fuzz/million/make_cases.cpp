/* Cases: a command, files that fit it, about half of them spoiled, options, and now and then words that are no command, memory that is
 * refused, or little room. */
#include "generator.h"
#include "judge.h"
#include "library.h"
#include "make_larger.h"
#include "making.h"
#include "tables.h"
#include <algorithm>

namespace {

struct Weight {
    const char *verb;
    size_t weight;
};
const Weight WEIGHTS[] = {{"simplify", 12}, {"check", 18},  {"annotate", 7}, {"shown", 7}, {"rebuild", 9}, {"refute", 9}, {"validate", 11}, {"miter", 6},
                          {"solve", 6},     {"extract", 9}, {"disprove", 9}, {"apply", 7},   {"gen", 1},    {"demo", 1}};

class Maker {
  public:
    Maker(Chance &chance, View verb) : chance_(chance), verb_(verb.empty() ? some_verb() : Bytes(verb)) {}
    Case made() {
        const Shape &shape = *shape_of(verb_);
        choose_options(shape);
        if (!shape.reads.empty()) right_files();
        if (!shape.reads.empty() && chance_.odds(0.5)) spoil();
        case_.words = {shape.word()};
        if (shape.reads.empty()) case_.words.insert(case_.words.end(), {std::to_string(seed_), std::to_string(size_)});
        for (const char *name : shape.reads) case_.words.push_back(name);
        for (const char *name : shape.makes) case_.words.push_back(name);
        if (has_cert_) case_.words.push_back("CERT");
        case_.words.insert(case_.words.end(), options_.begin(), options_.end());
        case_.is_by_name = chance_.odds(0.2);
        if (chance_.odds(verb_ == "simplify" || verb_ == "solve" ? 0.25 : 0.01)) case_.moves = some_moves(chance_, start_);
        if (chance_.odds(0.04)) wrong_words();
        else if (chance_.odds(0.05)) plan_fault();
        if (chance_.odds(0.01)) case_.files[chance_.among({"OUT", "LOG", "CERT", "HINTED"})] = "what was there before\n";
        return std::move(case_);
    }

  private:
    Chance &chance_;
    Bytes verb_;
    Case case_;
    std::vector<Bytes> options_;
    bool has_cert_ = false, has_part_ = false, is_herbrand_ = false;
    uint64_t seed_ = 0, size_ = 0;
    Formula start_;

    void wrong_words() {
        spoil_words(chance_, case_.words);
        const auto call = call_of(case_.words);
        if (call && call->verb == "demo" && call->size > 100) case_.words = {"demo"}; /* it would take minutes */
    }

    Bytes some_verb() {
        size_t sum = 0;
        for (const Weight &w : WEIGHTS) sum += w.weight;
        size_t place = chance_.below(sum);
        for (const Weight &w : WEIGHTS) {
            if (place < w.weight) return w.verb;
            place -= w.weight;
        }
        return "check";
    }

    /* --- options --- */
    void add_number(const char *name, double odds, int64_t most) {
        if (chance_.odds(odds)) options_.push_back(Bytes("--") + name + "=" + number_text(chance_.between(0, most)));
    }
    void choose_options(const Shape &shape) {
        if (verb_ == "gen" || verb_ == "demo") {
            seed_ = chance_.next() >> chance_.below(64);
            size_ = static_cast<uint64_t>(chance_.between(1, verb_ == "gen" ? 120 : chance_.odds(0.1) ? 50 : 9));
        } else if (verb_ == "simplify") {
            add_number("budget", 0.2, 40), add_number("grow", 0.25, 20), add_number("expand", 0.5, chance_.among({0, 4, 60}));
            if (chance_.odds(0.15)) options_.push_back("--plain");
            if (chance_.odds(0.02)) options_.push_back("--time=1000000");
        } else if (verb_ == "validate" || verb_ == "solve") {
            add_number("budget", 0.4, 12);
        } else if (verb_ == "miter" && chance_.coin()) {
            is_herbrand_ = true;
            options_.push_back("--herbrand");
        } else if (verb_ == "disprove" && chance_.coin()) {
            has_cert_ = true;
        }
        if (has_cert_ || shape.options.empty() || Bytes(shape.options.back()) != "part" || chance_.odds(0.7)) return;
        const int64_t parts = chance_.between(1, 4);
        has_part_ = true;
        options_.push_back("--part=" + number_text(chance_.between(1, parts)) + "/" + number_text(parts));
    }

    /* --- files --- */
    Answer played(std::vector<Bytes> words) {
        Case other;
        other.words = std::move(words), other.files = case_.files;
        return play(other);
    }
    Bytes made_by(std::vector<Bytes> words, const Bytes &name) {
        const Answer answer = played(std::move(words));
        auto file = answer.made.find(name);
        return file == answer.made.end() ? Bytes() : file->second;
    }
    void right_files() {
        start_ = some_formula(chance_);
        if (verb_ == "simplify" || verb_ == "check" || verb_ == "annotate" || verb_ == "apply") {
            if (chance_.odds(0.04)) start_ = larger_formula(chance_);
            else if (chance_.odds(0.02)) start_ = crowded_formula(chance_);
            else if (chance_.odds(0.01)) start_ = generated(chance_.next(), static_cast<uint64_t>(chance_.between(10, 40)));
        }
        if (verb_ == "solve" && chance_.odds(0.25)) start_ = larger_formula(chance_);
        if (verb_ == "extract" && chance_.odds(0.2)) start_ = following_formula(chance_);
        if (chance_.odds(0.06)) start_ = renumbered(chance_, std::move(start_));
        case_.files["IN"] = written(chance_, start_);
        start_ = read_formula(case_.files["IN"]);
        const Bytes role = verb_;
        if (role == "check" || role == "annotate" || role == "rebuild" || role == "refute" || role == "apply") log_files();
        if (role == "rebuild") case_.files["SKOLEM"] = circuits_of(formula_of("OUT"), 'e');
        if (role == "refute") case_.files["HERBRAND"] = circuits_of(formula_of("OUT"), 'a');
        if (role == "validate") case_.files["CERT"] = circuits_of(start_, 'e');
        if (role == "miter") case_.files["CERT"] = circuits_of(start_, is_herbrand_ ? 'a' : 'e');
        if (role == "extract") case_.files["TRACE"] = some_trace(chance_, start_);
        if (role == "disprove" || role == "shown") case_.files["PROOF"] = proof(), with_hints();
    }
    Formula formula_of(const Bytes &name) { return read_formula(case_.files[name]); }
    Bytes circuits_of(const Formula &formula, char owner) {
        if (chance_.odds(0.04)) owner = owner == 'e' ? 'a' : 'e';
        return some_circuits(chance_, formula, owner, chance_.among({0.0, 0.0, 0.0, 0.2, 1.0}));
    }
    std::vector<Bytes> simplify_words() {
        std::vector<Bytes> words{"simplify", "IN", "OUT", "LOG"};
        if (chance_.odds(0.5)) words.push_back("--expand=" + number_text(chance_.among({0, 0, 2, 40})));
        if (chance_.odds(0.2)) words.push_back("--grow=" + number_text(chance_.between(0, 20)));
        if (chance_.odds(0.2)) words.push_back("--budget=" + number_text(chance_.between(0, 40)));
        if (chance_.odds(verb_ == "refute" ? 0.6 : 0.1)) words.push_back("--plain");
        return words;
    }
    void log_files() {
        if (chance_.odds(0.4)) {
            Walk walk = some_walk(chance_, start_);
            case_.files["OUT"] = walk.end, case_.files["LOG"] = walk.log;
        } else {
            const Answer answer = played(simplify_words());
            for (const char *name : {"OUT", "LOG"}) case_.files[name] = answer.made.count(name) ? answer.made.at(name) : Bytes();
        }
        if (has_part_ && chance_.odds(0.3)) case_.files["LOG"] = padding(chance_, start_) + case_.files["LOG"];
        if (verb_ != "annotate" && chance_.odds(0.4)) {
            const Bytes hinted = made_by({"annotate", "IN", "OUT", "LOG", "HINTED"}, "HINTED");
            if (!hinted.empty()) case_.files["LOG"] = hinted;
        }
        if (verb_ == "apply") {
            case_.files.erase("OUT");
            if (chance_.odds(0.4)) case_.files["LOG"].resize(chance_.below(case_.files["LOG"].size() + 1));
        }
    }
    Bytes proof() {
        Bytes log = some_refutation(chance_, start_);
        if (chance_.odds(0.3)) {
            const Answer answer = played(simplify_words());
            log = answer.made.count("LOG") ? answer.made.at("LOG") : Bytes();
        }
        if (has_part_ && chance_.odds(0.3)) log = padding(chance_, start_) + log;
        const bool is_in_bytes = chance_.odds(0.5);
        if (chance_.odds(is_in_bytes ? 0.3 : 0.03)) options_.push_back("--binary");
        return is_in_bytes ? in_bytes(log) : log;
    }

    /* the proof may be one that `annotate` wrote */
    void with_hints() {
        if (chance_.odds(0.7)) return;
        std::vector<Bytes> words{"annotate", "IN", "PROOF", "HINTED"};
        const auto flag = std::find(options_.begin(), options_.end(), "--binary");
        if (flag != options_.end()) words.push_back("--binary");
        const Bytes hinted = made_by(words, "HINTED");
        if (hinted.empty()) return;
        case_.files["PROOF"] = hinted;
        if (flag != options_.end()) options_.erase(flag);
    }

    /* --- mistakes --- */
    /* the last file in the order of the command is the one that says most */
    void spoil() {
        for (int left = chance_.among({1, 1, 1, 2}); left > 0; left--) {
            size_t place = chance_.below(case_.files.size() + 2);
            auto file = case_.files.begin();
            const Bytes last = shape_of(verb_)->reads.back();
            if (place >= case_.files.size()) file = case_.files.find(last);
            else std::advance(file, place);
            spoil_file(file->first, file->second);
        }
    }
    void spoil_file(const Bytes &name, Bytes &text) {
        if (chance_.odds(0.03)) return void(text.clear());
        if (name == "LOG")
            text = is_hinted(text) ? (chance_.coin() ? spoiled_numbers(chance_, text) : spoiled(chance_, text))
                                   : spoiled_log(chance_, text, start_);
        else if (name == "PROOF" && is_hinted(text))
            text = chance_.coin() ? spoiled_numbers(chance_, text) : spoiled(chance_, text);
        else if (name == "PROOF")
            text = is_binary(text) || chance_.odds(0.1) ? spoiled_bytes(chance_, text) : spoiled_log(chance_, text, start_);
        else text = chance_.odds(0.3) ? spoiled_numbers(chance_, text) : spoiled(chance_, text);
    }
    void plan_fault() {
        using What = Fault::What;
        const Answer answer = play(case_);
        size_t sum = 0;
        for (const auto &made : answer.made) sum += made.second.size();
        switch (chance_.below(6)) {
        case 0: case_.fault = {What::ShortMade, chance_.below(sum + 2)}; break;
        case 1: case_.fault = {What::ShortLine, chance_.below(answer.line.size() + 3)}; break;
        case 2: case_.fault = {What::RefuseFrom, 1 + chance_.below(answer.allocations + 1)}; break;
        default: case_.fault = {What::RefuseOnce, 1 + chance_.below(answer.allocations + 1)};
        }
    }
};

} // namespace

Case some_case(Chance &chance, View verb) { return Maker(chance, verb).made(); }

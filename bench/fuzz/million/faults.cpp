/* The same case is played once more, without the fault. */
#include "faults.h"
#include "judge.h"
#include "library.h"
#include "wanted.h"
#include <set>

namespace {

bool is_front(const Bytes &front, const Bytes &text) { return text.substr(0, front.size()) == front; }

const Bytes &file_of(const Answer &answer, const Bytes &name) {
    static const Bytes nothing;
    auto file = answer.made.find(name);
    return file == answer.made.end() ? nothing : file->second;
}
/* LOG is the front of the text of valid steps; OUT, where there is something of it, is of the formula behind all of them */
void want_fronts(const Bytes &in, const Bytes &out, const Bytes &log) {
    if (out.empty() && log.empty()) return;
    const Formula start = read_formula(in);
    const size_t whole = log.rfind('\n') == Bytes::npos ? 0 : log.rfind('\n') + 1;
    Run run(start);
    const auto steps = text_steps(View(log).substr(0, whole));
    Step step;
    while (steps->next(step)) {
        want(run.cause(step) == 0, "a front of a log of valid steps");
        run.make(step);
    }
    if (out.empty()) return;
    want(whole == log.size(), "a whole log before OUT");
    const Bytes text = canonical(run.formula());
    const std::vector<View> lines = lines_with_ends(text);
    const std::multiset<View> wanted(lines.begin(), lines.end());
    for (View line : lines_with_ends(out))
        if (line.back() == '\n') want(wanted.count(line), "a front of the formula behind the log");
}

} // namespace

void judge_want_of_memory(const Case &what, const Call &call, const Answer &answer) {
    want(answer.line == "no memory" || answer.line.empty() || call.verb == "demo", "'no memory', or nothing");
    for (const Bytes &name : call.makes)
        if (what.files.count(name)) return; /* of a file that was given nothing is told */
    Case whole = what;
    whole.fault = Fault();
    const Answer full = play(whole);
    if (call.verb == "simplify" || call.verb == "solve") {
        const auto in = what.files.find(call.reads[0]);
        want_fronts(in == what.files.end() ? Bytes() : in->second, file_of(answer, call.makes[0]), file_of(answer, call.makes[1]));
    } else if (call.verb == "demo") {
        want(is_front(file_of(answer, call.makes[0]), file_of(full, call.makes[0])), "a front of IN");
        want_fronts(file_of(full, call.makes[0]), file_of(answer, call.makes[1]), file_of(answer, call.makes[2]));
    } else {
        for (const Bytes &name : call.makes) want(is_front(file_of(answer, name), file_of(full, name)), "a front of " + name);
    }
}

void judge_short(const Case &what, const Answer &answer) {
    Case wide = what;
    wide.fault = Fault();
    const Answer full = play(wide);
    want(answer.status == full.status, "the status that comes with more room");
    want(answer.line.size() == full.line.size() || what.fault.what == Fault::What::ShortLine, "the line that comes with more room");
    if (what.fault.what == Fault::What::ShortLine) {
        const size_t wanted = full.line.size() + 1;
        want(full.line.empty() || answer.line.size() + (what.fault.at >= wanted) == wanted, "the length of the line");
    }
    size_t sum = 0;
    for (const auto &[name, text] : full.made) {
        want(file_of(answer, name).size() == text.size(), "the length of " + name);
        sum += text.size();
    }
    want(answer.made.size() == full.made.size(), "the files that are made with more room");
    if (what.fault.what == Fault::What::ShortLine || sum <= what.fault.at) want(answer.made == full.made, "the files where there is room");
}

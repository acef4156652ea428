/* A line of a trace follows from none, one or two earlier ones; what it may be is tried for each pivot. */
#include "trace.h"
#include <algorithm>
#include <cstdlib>
#include <map>
#include <set>

namespace {

using Literals = std::set<int>;
struct Line {
    uint64_t place;
    int64_t name;
    Literals literals;
    std::vector<int64_t> named;
};

class Reader {
  public:
    explicit Reader(View text) : words_(text) {}
    std::vector<Line> lines;
    View verdict;
    uint64_t place = 0; /* of the verdict */

    void read() {
        take("p"), take("qrp"), number(0), number(0);
        while (is("e") || is("a")) {
            at_++;
            while (number(0) != 0) continue;
        }
        while (!is("r")) read_line();
        at_++;
        place = line();
        if (!is("SAT") && !is("UNSAT") && !is("UNKNOWN")) wrong();
        verdict = words_.list[at_].text;
    }

  private:
    Words words_;
    size_t at_ = 0;
    static constexpr int64_t MOST = 2147483647;

    bool is_over() const { return at_ == words_.list.size(); }
    uint64_t line() const { return is_over() ? words_.end : words_.list[at_].line; }
    bool is(View text) const { return !is_over() && words_.list[at_].text == text; }
    [[noreturn]] void wrong() const { throw Refused{line(), is_over() ? 2 : 1}; }
    void take(View text) {
        if (!is(text)) wrong();
        at_++;
    }
    int64_t number(int64_t least, int64_t most = MOST) {
        int64_t value;
        if (is_over() || !number_of(words_.list[at_].text, value)) wrong();
        if (std::abs(value) > MOST) throw Refused{line(), 8};
        if (value < least || value > most) wrong();
        at_++;
        return value;
    }
    void read_line() {
        Line found;
        found.place = line();
        found.name = number(1);
        if (!lines.empty() && found.name <= lines.back().name) throw Refused{found.place, 3};
        while (int64_t literal = number(-MOST)) found.literals.insert(static_cast<int>(literal));
        while (int64_t name = number(0, found.named.size() < 2 ? MOST : 0)) found.named.push_back(name);
        lines.push_back(found);
    }
};

class Judge {
  public:
    Judge(const Formula &formula, char owner) : owner_(owner) {
        for (size_t at = 0; at < formula.prefix.size(); at++) {
            quantifiers_[formula.prefix[at].variable] = formula.prefix[at].quantifier;
            places_[formula.prefix[at].variable] = static_cast<int>(at);
        }
        for (const Clause &clause : formula.matrix) {
            clauses_.insert(Literals(clause.begin(), clause.end()));
            if (std::none_of(clause.begin(), clause.end(), [&](int k) { return holds(clause, -k); })) to_meet_.push_back(clause);
        }
    }
    bool may_stand(const Literals &line) const {
        if (std::any_of(line.begin(), line.end(), [&](int k) { return is_owned(k) && line.count(-k); })) return false;
        if (owner_ == 'a') return clauses_.count(line);
        return std::all_of(to_meet_.begin(), to_meet_.end(), [&](const Clause &clause) {
            return std::any_of(clause.begin(), clause.end(), [&](int k) { return line.count(k); });
        });
    }
    int cause(const Line &line, const std::map<int64_t, Literals> &before) const {
        for (int k : line.literals)
            if (!quantifiers_.count(std::abs(k))) return 4;
        if (line.named.empty()) return may_stand(line.literals) ? 0 : 6;
        for (int64_t name : line.named)
            if (!before.count(name)) return may_stand(line.literals) ? 0 : 5;
        std::vector<Literals> parents{before.at(line.named[0])};
        if (line.named.size() == 2) {
            const Literals first = parents[0], &other = before.at(line.named[1]);
            parents.clear();
            bool has_pivot = false;
            for (int k : first) {
                if (!other.count(-k) || is_owned(k)) continue;
                has_pivot = true;
                if (may_merge(first, other, k)) parents.push_back(resolvent(first, other, k));
            }
            if (!has_pivot) return 7;
        }
        for (int k : line.literals)
            if (is_owned(k) && line.literals.count(-k)) keep(parents, [&](const Literals &p) { return p.count(k) && p.count(-k); });
        return parents.empty() ? 9 : cause_of_reduction(parents, line.literals);
    }
    bool has_merge(const Literals &line) const {
        return std::any_of(line.begin(), line.end(), [&](int k) { return is_owned(k) && line.count(-k); });
    }

  private:
    char owner_;
    std::map<int, char> quantifiers_;
    std::map<int, int> places_;
    std::set<Literals> clauses_;
    std::vector<Clause> to_meet_;

    bool is_owned(int k) const { return quantifiers_.at(std::abs(k)) == owner_; }
    int place(int k) const { return places_.at(std::abs(k)); }
    template <class Test> static void keep(std::vector<Literals> &parents, Test test) {
        parents.erase(std::remove_if(parents.begin(), parents.end(), [&](const Literals &p) { return !test(p); }), parents.end());
    }
    static Literals resolvent(Literals first, Literals other, int pivot) {
        first.erase(pivot), other.erase(-pivot);
        first.insert(other.begin(), other.end());
        return first;
    }
    /* the pivot stands before each variable of the owner's of which the lines hold different signs */
    bool may_merge(const Literals &first, const Literals &other, int pivot) const {
        return std::all_of(first.begin(), first.end(), [&](int k) { return !is_owned(k) || !other.count(-k) || place(pivot) < place(k); });
    }
    int cause_of_reduction(std::vector<Literals> parents, const Literals &line) const {
        keep(parents, [&](const Literals &parent) {
            return std::all_of(parent.begin(), parent.end(), [&](int k) { return is_owned(k) || line.count(k); });
        });
        if (parents.empty()) return 10;
        for (const Literals &parent : parents) {
            int inner = -1;
            for (int k : parent)
                if (!is_owned(k)) inner = std::max(inner, place(k));
            if (std::all_of(parent.begin(), parent.end(), [&](int k) { return line.count(k) || inner < place(k); })) return 0;
        }
        return 11;
    }
};

/* the numbers of the last line without literals and of what it follows from */
std::set<int64_t> cone_of(const std::vector<Line> &lines) {
    std::map<int64_t, const Line *> by_name;
    std::vector<int64_t> waiting;
    for (const Line &line : lines) {
        by_name[line.name] = &line;
        if (line.literals.empty()) waiting.assign(1, line.name);
    }
    std::set<int64_t> cone;
    while (!waiting.empty()) {
        const int64_t name = waiting.back();
        waiting.pop_back();
        if (!cone.insert(name).second) continue;
        for (int64_t other : by_name[name]->named)
            if (other < name && by_name.count(other)) waiting.push_back(other);
    }
    return cone;
}

Bytes told(uint64_t line, int cause) { return "line " + std::to_string(line) + " cause " + std::to_string(cause); }

} // namespace

Verdict judge_trace(const Formula &formula, View trace) {
    Reader reader(trace);
    Verdict verdict;
    try {
        reader.read();
    } catch (const Refused &refused) {
        return verdict.refusal = told(refused.line, refused.cause), verdict;
    }
    if (reader.verdict == "UNKNOWN") return verdict;
    verdict.owner = reader.verdict == "SAT" ? 'e' : 'a';
    const Judge judge(formula, verdict.owner);
    const std::set<int64_t> cone = cone_of(reader.lines);
    if (cone.empty() && !judge.may_stand({})) return verdict.refusal = told(reader.place, 5), verdict;
    std::map<int64_t, Literals> before;
    for (const Line &line : reader.lines) {
        if (cone.count(line.name)) {
            if (int cause = judge.cause(line, before)) return verdict.refusal = told(line.place, cause), verdict;
            verdict.has_merges = verdict.has_merges || judge.has_merge(line.literals);
        }
        before[line.name] = line.literals;
    }
    return verdict;
}

/* The reader of formulas goes from word to word, and knows whether it is in a set, in a clause or between them. */
#include "formula.h"
#include <algorithm>
#include <cstdlib>

bool comes_before(int literal, int other) {
    return std::abs(literal) != std::abs(other) ? std::abs(literal) < std::abs(other) : literal < other;
}
Clause clause_of(std::vector<int> literals) {
    std::sort(literals.begin(), literals.end(), comes_before);
    literals.erase(std::unique(literals.begin(), literals.end()), literals.end());
    return literals;
}
bool holds(const Clause &clause, int literal) { return std::find(clause.begin(), clause.end(), literal) != clause.end(); }
bool has_empty_clause(const Formula &formula) {
    return std::any_of(formula.matrix.begin(), formula.matrix.end(), [](const Clause &clause) { return clause.empty(); });
}

namespace {

class Reading {
  public:
    explicit Reading(View text) : words_(text) {}
    Formula formula() {
        read_header();
        for (size_t at = 4; at < words_.list.size(); at++) take(words_.list[at]);
        finish();
        return std::move(formula_);
    }

  private:
    enum class Place { Between, Set, Clause };
    Words words_;
    Formula formula_;
    int64_t most_ = 0, count_ = 0;
    std::vector<int> row_, bound_;
    Place place_ = Place::Between;
    char quantifier_ = 'e';

    void read_header() {
        int64_t *numbers[] = {&most_, &count_};
        const int64_t limits[] = {MOST_VARIABLES, MOST_CLAUSES};
        const View wanted[] = {"p", "cnf"};
        for (size_t at = 0; at < 4; at++) {
            if (at >= words_.list.size()) throw Refused{words_.end, 1};
            const Word &word = words_.list[at];
            if (at < 2 ? word.text != wanted[at] : !plain_number_of(word.text, *numbers[at - 2])) throw Refused{word.line, 1};
            if (at >= 2 && *numbers[at - 2] > limits[at - 2]) throw Refused{word.line, 8};
        }
    }
    void take(const Word &word) {
        if (place_ == Place::Set) return take_in_set(word);
        if (place_ == Place::Clause) return take_in_clause(word);
        int64_t value;
        if (word.text == "e" || word.text == "a") {
            if (!formula_.matrix.empty()) throw Refused{word.line, 5};
            quantifier_ = word.text[0];
            place_ = Place::Set;
            return;
        }
        if (!number_of(word.text, value)) throw Refused{word.line, 2};
        if (static_cast<int64_t>(formula_.matrix.size()) == count_) throw Refused{word.line, 6};
        place_ = Place::Clause;
        take_in_clause(word);
    }
    void take_in_set(const Word &word) {
        int64_t value;
        if (!number_of(word.text, value) || value < 0) throw Refused{word.line, 2};
        if (value > most_) throw Refused{word.line, 3};
        if (std::find(bound_.begin(), bound_.end(), value) != bound_.end()) throw Refused{word.line, 4};
        if (value == 0) {
            place_ = Place::Between;
            return;
        }
        bound_.push_back(static_cast<int>(value));
        formula_.prefix.push_back({quantifier_, static_cast<int>(value)});
    }
    void take_in_clause(const Word &word) {
        int64_t value;
        if (!number_of(word.text, value)) throw Refused{word.line, 2};
        if (std::abs(value) > most_) throw Refused{word.line, 3};
        if (value != 0) {
            row_.push_back(static_cast<int>(value));
            return;
        }
        formula_.matrix.push_back(clause_of(std::move(row_)));
        row_.clear();
        place_ = Place::Between;
    }
    void finish() {
        if (place_ != Place::Between) throw Refused{words_.end, 7};
        if (static_cast<int64_t>(formula_.matrix.size()) < count_) throw Refused{words_.end, 6};
        std::sort(bound_.begin(), bound_.end());
        std::vector<Bound> free;
        for (int v : used_variables(formula_))
            if (!std::binary_search(bound_.begin(), bound_.end(), v)) free.push_back({'e', v});
        formula_.prefix.insert(formula_.prefix.begin(), free.begin(), free.end());
    }
};

} // namespace

Formula read_formula(View text) { return Reading(text).formula(); }

std::vector<int> block_numbers(const std::vector<Bound> &prefix) {
    std::vector<int> numbers;
    for (size_t at = 0; at < prefix.size(); at++)
        numbers.push_back(at == 0 ? 0 : numbers.back() + (prefix[at].quantifier != prefix[at - 1].quantifier));
    return numbers;
}

std::vector<int> used_variables(const Formula &formula) {
    std::vector<int> used;
    for (const Clause &clause : formula.matrix)
        for (int literal : clause) used.push_back(std::abs(literal));
    std::sort(used.begin(), used.end());
    used.erase(std::unique(used.begin(), used.end()), used.end());
    return used;
}

Bytes canonical(const Formula &formula) {
    int greatest = 0;
    for (const Bound &bound : formula.prefix) greatest = std::max(greatest, bound.variable);
    Bytes text = "p cnf " + number_text(greatest) + " " + number_text(static_cast<int64_t>(formula.matrix.size())) + "\n";
    for (size_t at = 0; at < formula.prefix.size(); at++) {
        const Bound &bound = formula.prefix[at];
        if (at == 0 || formula.prefix[at - 1].quantifier != bound.quantifier) text += (at ? " 0\n" : "") + Bytes(1, bound.quantifier);
        text += " " + number_text(bound.variable);
    }
    if (!formula.prefix.empty()) text += " 0\n";
    for (const Clause &clause : formula.matrix) {
        for (int literal : clause) text += number_text(literal) + " ";
        text += "0\n";
    }
    return text;
}

int64_t measure(const Formula &formula, int64_t grow, int64_t expand) {
    const std::vector<int> used = used_variables(formula);
    int64_t sum = 0;
    for (const Clause &clause : formula.matrix) sum += static_cast<int64_t>(clause.size()) + 1;
    for (const Bound &bound : formula.prefix)
        if (std::binary_search(used.begin(), used.end(), bound.variable))
            sum += bound.quantifier == 'e' ? grow + 1 : expand + (grow + 1) * expand + 1;
    return sum;
}

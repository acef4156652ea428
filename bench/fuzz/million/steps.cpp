/* Readers of steps. A reader of words is at a place; what does not fit is refused there. */
#include "steps.h"
#include <cstdlib>

namespace {

class Reader {
  public:
    explicit Reader(View text) : words_(text) {}
    bool is_over() const { return at_ == words_.list.size(); }
    bool is_at_open_word() const { return at_ + 1 == words_.list.size() && words_.is_open; }
    View peek() const {
        if (is_over()) refuse();
        return words_.list[at_].text;
    }
    uint64_t line() const { return is_over() ? words_.end : words_.list[at_].line; }
    [[noreturn]] void refuse() const { throw Refused{line(), 1}; }

    void header() {
        int64_t profile;
        for (View wanted : {View("p"), View("qrat")}) {
            if (peek() != wanted) refuse();
            at_++;
        }
        if (!number_of(peek(), profile) || profile != 2) refuse();
        at_++;
    }
    void step(Step &step) {
        step.line = line();
        step.literals.clear(), step.proof = Proof(), step.number = 0;
        View word = peek();
        bool has_letter = word == "d" || word == "u" || word == "e" || word == "r";
        step.kind = has_letter ? static_cast<Kind>(word[0]) : Kind::Add;
        at_ += has_letter;
        if (step.kind == Kind::Fresh || step.kind == Kind::Remove) {
            for (int count = step.kind == Kind::Fresh ? 2 : 1; count > 0; count--)
                step.literals.push_back(static_cast<int>(positive(MOST_LITERAL)));
            zero();
            return;
        }
        while (int literal = this->literal()) step.literals.push_back(literal);
        if (step.kind == Kind::Drop && step.literals.empty()) at_--, refuse();
    }
    void hinted(Step &step) {
        this->step(step);
        if (step.names_clause()) step.number = positive(GREATEST - 1);
        if (step.is_of_clause()) proof(step.proof);
    }

  private:
    Words words_;
    size_t at_ = 0;

    int literal() {
        int64_t value;
        if (!number_of(peek(), value) || std::abs(value) > MOST_LITERAL) refuse();
        at_++;
        return static_cast<int>(value);
    }
    int64_t positive(int64_t most, bool or_zero = false) {
        int64_t value;
        if (!number_of(peek(), value) || value > most || value < (or_zero ? 0 : 1)) refuse();
        at_++;
        return value;
    }
    void zero() {
        int64_t value;
        if (!number_of(peek(), value) || value != 0) refuse();
        at_++;
    }
    void hints(std::vector<int64_t> &row) {
        while (int64_t hint = positive(GREATEST - 1, true)) row.push_back(hint);
    }
    void proof(Proof &proof) {
        int64_t kind;
        if (!number_of(peek(), kind) || kind < 1 || kind > 3) refuse();
        at_++;
        proof.kind = static_cast<int>(kind);
        if (kind == 3) return zero();
        if (kind == 1) {
            proof.groups.push_back({0, {}});
            return hints(proof.groups[0].hints);
        }
        while (int64_t target = positive(GREATEST - 1, true)) {
            proof.groups.push_back({target, {}});
            hints(proof.groups.back().hints);
        }
    }
};

class TextSteps : public Steps {
  public:
    TextSteps(View text, bool has_hints) : reader_(text), has_hints_(has_hints) {}
    bool next(Step &step) override {
        if (has_hints_ && !is_begun_) reader_.header();
        is_begun_ = true;
        if (reader_.is_over()) return false;
        if (has_hints_) reader_.hinted(step);
        else reader_.step(step);
        return true;
    }
    const Reader &reader() const { return reader_; }

  private:
    Reader reader_;
    bool has_hints_, is_begun_ = false;
};

class BinarySteps : public Steps {
  public:
    explicit BinarySteps(View text) : text_(text) {}
    bool next(Step &step) override {
        if (at_ == text_.size()) return false;
        step.line = ++line_, step.literals.clear(), step.proof = Proof();
        char letter = text_[at_++];
        if (letter != 'a' && letter != 'd') refuse();
        step.kind = letter == 'a' ? Kind::Add : Kind::Delete;
        while (uint64_t value = group()) {
            if (value == 1 || value / 2 > static_cast<uint64_t>(MOST_LITERAL)) refuse();
            step.literals.push_back(static_cast<int>(value & 1 ? -static_cast<int64_t>(value / 2) : static_cast<int64_t>(value / 2)));
        }
        return true;
    }

  private:
    View text_;
    size_t at_ = 0;
    uint64_t line_ = 0;
    [[noreturn]] void refuse() const { throw Refused{line_, 1}; }
    uint64_t group() {
        uint64_t value = 0;
        for (int shift = 0; shift < 35 && at_ < text_.size(); shift += 7) {
            uint64_t byte = static_cast<unsigned char>(text_[at_++]);
            value |= (byte & 127) << shift;
            if (byte < 128) return value;
        }
        refuse();
    }
};

} // namespace

bool is_hinted(View text) {
    Words words(text);
    return !words.list.empty() && words.list[0].text == "p";
}
bool is_binary(View text) {
    if (text.empty()) return false;
    return text[0] == 'a' || (text[0] == 'd' && text.size() > 1 && View(" \t\r\n").find(text[1]) == View::npos);
}
std::unique_ptr<Steps> text_steps(View text) { return std::make_unique<TextSteps>(text, false); }
std::unique_ptr<Steps> hinted_steps(View text) { return std::make_unique<TextSteps>(text, true); }
std::unique_ptr<Steps> binary_steps(View text) { return std::make_unique<BinarySteps>(text); }

Whole whole_steps(View text) {
    TextSteps steps(text, is_hinted(text));
    Whole whole;
    try {
        Step step;
        while (steps.next(step)) whole.steps.push_back(step);
    } catch (const Refused &refused) {
        whole.line = refused.line;
        /* the last word may go on, where nothing stands behind it */
        whole.is_bad = !steps.reader().is_over() && !steps.reader().is_at_open_word();
    }
    return whole;
}

Bytes step_text(const Step &step) {
    Bytes text = step.kind == Kind::Add ? "" : Bytes(1, static_cast<char>(step.kind)) + " ";
    for (int literal : step.literals) text += number_text(literal) + " ";
    return text + "0\n";
}

/* Words, numbers and lines of a text. */
#include "text.h"

static bool is_blank(char c) { return c == ' ' || c == '\t' || c == '\r' || c == '\n'; }

Words::Words(View text) {
    size_t at = 0;
    bool is_first = true; /* of its line */
    list.reserve(text.size() / 3 + 4);
    while (at < text.size()) {
        if (text[at] == '\n') {
            end++, at++, is_first = true;
        } else if (is_blank(text[at])) {
            at++;
        } else if (is_first && text[at] == 'c') {
            while (at < text.size() && text[at] != '\n') at++;
        } else {
            size_t start = at;
            while (at < text.size() && !is_blank(text[at])) at++;
            list.push_back({text.substr(start, at - start), end});
            is_first = false, is_open = at == text.size();
        }
    }
    is_open = is_open && !list.empty() && list.back().text.data() + list.back().text.size() == text.data() + text.size();
}

bool number_of(View word, int64_t &value) {
    size_t at = word[0] == '-';
    if (at == word.size()) return false;
    value = 0;
    for (; at < word.size(); at++) {
        if (word[at] < '0' || word[at] > '9') return false;
        int digit = word[at] - '0';
        value = value > (GREATEST - digit) / 10 ? GREATEST : 10 * value + digit;
    }
    if (word[0] == '-' && value == 0) return false;
    if (word[0] == '-') value = -value;
    return true;
}

bool plain_number_of(View word, int64_t &value) { return word[0] != '-' && number_of(word, value); }

Bytes number_text(int64_t value) { return std::to_string(value); }

std::vector<View> lines_with_ends(View text) {
    std::vector<View> lines;
    while (!text.empty()) {
        size_t end = text.find('\n');
        size_t size = end == View::npos ? text.size() : end + 1;
        lines.push_back(text.substr(0, size));
        text.remove_prefix(size);
    }
    return lines;
}

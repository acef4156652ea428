/* Mistakes in files and in words. */
#include "making.h"
#include <algorithm>
#include <cstdlib>

/* words that may stand in place of another one */
static const char *const STRANGE[] = {"0",
                                      "1",
                                      "-1",
                                      "2",
                                      "-0",
                                      "+1",
                                      "00",
                                      "007",
                                      "-03",
                                      "1x",
                                      "x",
                                      "-",
                                      "e",
                                      "a",
                                      "d",
                                      "u",
                                      "r",
                                      "p",
                                      "c",
                                      "cnf",
                                      "qrat",
                                      "16777215",
                                      "16777216",
                                      "33554432",
                                      "33554433",
                                      "2147483647",
                                      "2147483648",
                                      "aag",
                                      "qrp",
                                      "3",
                                      "SAT",
                                      "UNSAT",
                                      "UNKNOWN",
                                      "-2147483648",
                                      "268435456",
                                      "268435457",
                                      "i0",
                                      "o0",
                                      "--1",
                                      "1-",
                                      "4611686018427387903",
                                      "4611686018427387904",
                                      "99999999999999999999",
                                      "9",
                                      "-9",
                                      "10000000000000000000000000000000000000001"};

struct Span {
    size_t start, end;
};
static std::vector<Span> spans_of(const Bytes &text) {
    std::vector<Span> spans;
    for (size_t at = 0; at < text.size();) {
        const auto is_blank = [&](size_t i) { return text[i] == ' ' || text[i] == '\t' || text[i] == '\r' || text[i] == '\n'; };
        if (is_blank(at)) {
            at++;
            continue;
        }
        const size_t start = at;
        while (at < text.size() && !is_blank(at)) at++;
        spans.push_back({start, at});
    }
    return spans;
}
static bool is_number(View word) {
    int64_t value;
    return number_of(word, value) && std::abs(value) < GREATEST;
}
static Bytes other_number(Chance &chance, View word) {
    int64_t value = 0;
    number_of(word, value);
    return number_text(chance.odds(0.3) ? -value : value + chance.among({-1, 1, 2, -2}));
}

static Bytes spoiled_word(Chance &chance, const Bytes &text) {
    const std::vector<Span> spans = spans_of(text);
    if (spans.empty()) return text;
    const Span here = spans[chance.below(spans.size())], there = spans[chance.below(spans.size())];
    const Bytes word = text.substr(here.start, here.end - here.start), front = text.substr(0, here.start), back = text.substr(here.end);
    const size_t way = chance.below(20);
    if (way < 5) return front + back;
    if (way < 8) return front + word + " " + word + back;
    if (way < 11) return front + text.substr(there.start, there.end - there.start) + back;
    if (way < 16 && is_number(word)) return front + other_number(chance, word) + back;
    return front + STRANGE[chance.below(sizeof STRANGE / sizeof *STRANGE)] + back;
}
static Bytes spoiled_line(Chance &chance, const Bytes &text) {
    std::vector<View> lines = lines_with_ends(text);
    if (lines.empty()) return "\n";
    const size_t here = chance.below(lines.size()), there = chance.below(lines.size()), way = chance.below(10);
    if (way < 4) lines.erase(lines.begin() + static_cast<std::ptrdiff_t>(here));
    else if (way < 7) lines.insert(lines.begin() + static_cast<std::ptrdiff_t>(there), lines[here]);
    else std::swap(lines[here], lines[there]);
    Bytes found;
    for (View line : lines) found += line;
    return found;
}
static Bytes inserted(Chance &chance, const Bytes &text) {
    static const View PIECES[] = {"\n", " ",  "\r",   "c ",   "\nc x\n", View("\0", 1), "\xff", "0",
                                  "-",  "\t", "\n\n", "\x1a", "\f",      "e",           "\r\n"};
    const size_t at = chance.below(text.size() + 1);
    return text.substr(0, at) + Bytes(PIECES[chance.below(sizeof PIECES / sizeof *PIECES)]) + text.substr(at);
}

Bytes spoiled(Chance &chance, Bytes text) {
    for (int left = chance.among({1, 1, 1, 2, 3}); left > 0; left--) {
        const size_t way = chance.below(100);
        if (way < 55) text = spoiled_word(chance, text);
        else if (way < 82) text = spoiled_line(chance, text);
        else if (way < 90) text = text.substr(0, chance.below(text.size() + 1));
        else text = inserted(chance, text);
    }
    return text;
}
Bytes spoiled_numbers(Chance &chance, Bytes text) {
    std::vector<Span> spans = spans_of(text);
    spans.erase(std::remove_if(spans.begin(), spans.end(), [&](Span s) { return !is_number(View(text).substr(s.start, s.end - s.start)); }),
                spans.end());
    if (spans.empty()) return spoiled(chance, text);
    const Span here = spans[chance.below(spans.size())], there = spans[chance.below(spans.size())];
    const Bytes word = text.substr(here.start, here.end - here.start);
    const Bytes other = chance.odds(0.4) ? text.substr(there.start, there.end - there.start) : other_number(chance, word);
    return text.substr(0, here.start) + other + text.substr(here.end);
}
Bytes spoiled_bytes(Chance &chance, Bytes text) {
    for (int left = chance.among({1, 1, 2}); left > 0; left--) {
        if (text.empty()) return "a";
        const size_t at = chance.below(text.size());
        const Bytes pieces[] = {
            "", Bytes(1, static_cast<char>(chance.below(256))), Bytes(2, text[at]), Bytes(1, '\0'), "\xff\xff", "\x80", "a", "d"};
        text = chance.odds(0.1) ? text.substr(0, at) : text.substr(0, at) + pieces[chance.below(8)] + text.substr(at + 1);
    }
    return text;
}
Bytes spoiled_log(Chance &chance, Bytes text, const Formula &start) {
    const size_t way = chance.below(10);
    if (way < 3) return spoiled(chance, text);
    if (way < 6) return spoiled_numbers(chance, text);
    const std::vector<View> lines = lines_with_ends(text);
    const size_t place = chance.below(lines.size() + 1);
    Bytes found;
    for (size_t at = 0; at < place; at++) found += lines[at];
    found += some_step_text(chance, start);
    for (size_t at = place; at < lines.size(); at++) found += lines[at];
    return found;
}

void spoil_words(Chance &chance, std::vector<Bytes> &words) {
    static const char *const OPTIONS[] = {"--budget=1",
                                          "--grow=3",
                                          "--expand=007",
                                          "--grow=10001",
                                          "--grow=",
                                          "--expand",
                                          "--budget=18446744073709551615",
                                          "--budget=18446744073709551616",
                                          "--plain",
                                          "--plain=1",
                                          "--time=5",
                                          "--time=0",
                                          "--part=1/2",
                                          "--part=3/2",
                                          "--part=0/1",
                                          "--part=1/4294967295",
                                          "--part=1/4294967296",
                                          "--part=01/002",
                                          "--part=1/1/1",
                                          "--part=/",
                                          "--herbrand",
                                          "--binary",
                                          "--Binary",
                                          "--stats",
                                          "--",
                                          "-",
                                          "--budget=+1",
                                          "--budget=-0",
                                          "--fast"};
    const auto at = [&] { return words.begin() + static_cast<std::ptrdiff_t>(chance.below(words.size() + 1)); };
    switch (words.empty() ? 0 : chance.below(8)) {
    case 0: words.insert(at(), OPTIONS[chance.below(sizeof OPTIONS / sizeof *OPTIONS)]); break;
    case 1: words.push_back(OPTIONS[chance.below(sizeof OPTIONS / sizeof *OPTIONS)]); break;
    case 2: words.erase(words.begin() + static_cast<std::ptrdiff_t>(chance.below(words.size()))); break;
    case 3: words.insert(at(), Bytes(words[chance.below(words.size())])); break;
    case 4: words[chance.below(words.size())] = words[chance.below(words.size())]; break;
    case 5: std::swap(words[chance.below(words.size())], words[chance.below(words.size())]); break;
    case 6:
        words[chance.below(words.size())] =
            chance.among({"", "x", "\xff", "check", "simplify", "solve", "help", "--help", "\xc3\xa9", "\xed\xa0\x80", "1", "0"});
        break;
    default: spoil_words(chance, words), spoil_words(chance, words);
    }
}

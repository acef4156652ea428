/* The reader of lists of moves, with its refusals. */
#include "moves.h"
#include <algorithm>

const std::vector<std::pair<View, View>> &rules() {
    static const std::vector<std::pair<View, View>> all = {{"tautology", "N"}, {"unit", "N"},      {"cut", "NL"},
                                                           {"pure", "L"},      {"subsumed", "NN"}, {"strengthen", "NNL"},
                                                           {"merge", "LL"},    {"blocked", "NL"},  {"blocked-forall", "NL"},
                                                           {"cover", "N"},     {"eliminate", "N"}, {"expand", "N"}};
    return all;
}

static bool is_number(View word, int64_t least, int64_t most) {
    int64_t value;
    return !word.empty() && plain_number_of(word, value) && value >= least && value <= most;
}
static bool is_field(View word, char kind) {
    if (kind == 'N') return is_number(word, 0, 4294967295);
    return is_number(!word.empty() && word[0] == '-' ? word.substr(1) : word, 1, 2147483647);
}

static bool is_move(View line) {
    std::vector<View> fields;
    for (size_t end; (end = line.find(' ')) != View::npos; line.remove_prefix(end + 1)) fields.push_back(line.substr(0, end));
    fields.push_back(line);
    const auto rule = std::find_if(rules().begin(), rules().end(), [&](const auto &it) { return it.first == fields[0]; });
    if (rule == rules().end() || fields.size() != rule->second.size() + 1) return false;
    for (size_t at = 0; at < rule->second.size(); at++)
        if (!is_field(fields[at + 1], rule->second[at])) return false;
    return true;
}

size_t wrong_move(View moves) {
    size_t number = 0;
    for (View line : lines_with_ends(moves)) {
        number++;
        if (line.back() == '\n') line.remove_suffix(1);
        if (!line.empty() && !is_move(line)) return number;
    }
    return 0;
}

/* Which words are a command, and what they ask for: `celdrinn help COMMAND`, but that each file is named, and options stand behind the
 * names. */
#include "call.h"
#include <algorithm>

const std::vector<Shape> &shapes() {
    static const std::vector<Shape> all = {
        {"simplify", {"IN"}, {"OUT", "LOG"}, {"budget", "grow", "expand", "plain", "time"}},
        {"check", {"IN", "OUT", "LOG"}, {}, {"part"}},
        {"rebuild", {"IN", "OUT", "LOG", "SKOLEM"}, {"CERT"}, {}},
        {"shown", {"IN", "PROOF"}, {"HINTED"}, {"binary", "part"}, "annotate"},
        {"annotate", {"IN", "OUT", "LOG"}, {"HINTED"}, {"part"}},
        {"refute", {"IN", "OUT", "LOG", "HERBRAND"}, {"CERT"}, {}},
        {"extract", {"IN", "TRACE"}, {"CERT"}, {}},
        {"disprove", {"IN", "PROOF"}, {}, {"binary", "part"}},
        {"miter", {"IN", "CERT"}, {"OUT"}, {"herbrand"}},
        {"validate", {"IN", "CERT"}, {}, {"budget"}},
        {"solve", {"IN"}, {"OUT", "LOG", "CERT"}, {"budget"}},
        {"gen", {}, {"OUT"}, {}},
        {"demo", {}, {"IN", "OUT", "LOG"}, {}},
        {"apply", {"IN", "LOG"}, {"OUT"}, {}},
    };
    return all;
}
const Shape *shape_of(const Bytes &verb) {
    for (const Shape &shape : shapes())
        if (verb == shape.verb) return &shape;
    return nullptr;
}

bool is_utf8(const Bytes &word) {
    for (size_t at = 0; at < word.size();) {
        const unsigned char first = static_cast<unsigned char>(word[at++]);
        if (first < 0x80) continue;
        const int behind = first >= 0xf0 ? 3 : first >= 0xe0 ? 2 : 1;
        static const uint32_t least[] = {0, 0x80, 0x800, 0x10000};
        if (first < 0xc0 || first > 0xf4) return false;
        uint32_t value = first & (0x3f >> behind);
        for (int i = 0; i < behind; i++, at++) {
            if (at >= word.size() || (static_cast<unsigned char>(word[at]) & 0xc0) != 0x80) return false;
            value = value << 6 | (static_cast<unsigned char>(word[at]) & 0x3f);
        }
        if (value < least[behind] || value > 0x10ffff || (value >= 0xd800 && value < 0xe000)) return false;
    }
    return true;
}

/* a number without a sign, up to a limit; leading zeros are allowed */
static bool bounded(View word, uint64_t least, uint64_t most, uint64_t &value) {
    unsigned __int128 sum = 0;
    if (word.empty()) return false;
    for (char c : word) {
        if (c < '0' || c > '9') return false;
        sum = std::min<unsigned __int128>(10 * sum + static_cast<unsigned>(c - '0'), static_cast<unsigned __int128>(1) << 80);
    }
    value = static_cast<uint64_t>(sum);
    return sum >= least && sum <= most;
}

static bool take_option(Call &call, View name, bool has_value, View value) {
    uint64_t seconds;
    if (name == "budget") return has_value && bounded(value, 0, UINT64_MAX, call.budget.emplace());
    if (name == "grow") return has_value && bounded(value, 0, 10000, call.grow);
    if (name == "expand") return has_value && bounded(value, 0, 10000, call.expand);
    if (name == "time") return has_value && bounded(value, 1, UINT32_MAX, seconds);
    if (name == "part") {
        const size_t slash = value.find('/');
        if (!has_value || slash == View::npos) return false;
        if (!bounded(value.substr(slash + 1), 1, UINT32_MAX, call.parts)) return false;
        return bounded(value.substr(0, slash), 1, call.parts, call.part);
    }
    bool &flag = name == "plain" ? call.plain : name == "herbrand" ? call.herbrand : call.binary;
    return !has_value && (flag = true);
}

static bool take_options(Call &call, const Shape &shape, const std::vector<Bytes> &words, size_t from) {
    std::vector<View> seen;
    for (size_t at = from; at < words.size(); at++) {
        View word = words[at];
        if (word.substr(0, 2) != "--") return false;
        const size_t equals = word.find('=');
        const View name = word.substr(2, equals == View::npos ? View::npos : equals - 2);
        const bool is_known = std::any_of(shape.options.begin(), shape.options.end(), [&](const char *known) { return name == known; });
        if (!is_known || std::find(seen.begin(), seen.end(), name) != seen.end()) return false;
        seen.push_back(name);
        if (!take_option(call, name, equals != View::npos, equals == View::npos ? View() : word.substr(equals + 1))) return false;
    }
    return true;
}

static std::optional<Call> call_by(const Shape &shape, const std::vector<Bytes> &words) {
    Call call;
    call.verb = shape.verb;
    size_t at = 1;
    if (shape.reads.empty()) {
        if (words.size() < 3 || !bounded(words[1], 0, UINT64_MAX, call.seed) || !bounded(words[2], 1, 100000, call.size)) return {};
        at = 3;
    }
    const size_t names = shape.reads.size() + shape.makes.size();
    if (words.size() < at + names) return {};
    for (size_t i = 0; i < names; i++, at++) (i < shape.reads.size() ? call.reads : call.makes).push_back(words[at]);
    /* a proof from which circuits are made is another call, which is not shared */
    const bool has_cert = call.verb == "disprove" && at < words.size() && words[at].substr(0, 2) != "--";
    if (has_cert) call.makes.push_back(words[at++]);
    if (!take_options(call, shape, words, at) || (has_cert && call.parts)) return {};
    std::vector<Bytes> all = call.reads;
    all.insert(all.end(), call.makes.begin(), call.makes.end());
    if ((has_cert || shape.other) && std::any_of(all.begin(), all.end(), [](const Bytes &name) { return name.substr(0, 2) == "--"; })) return {};
    std::sort(all.begin(), all.end());
    if (std::adjacent_find(all.begin(), all.end()) != all.end()) return {};
    return call;
}
std::optional<Call> call_of(const std::vector<Bytes> &words) {
    for (const Shape &shape : shapes())
        if (!words.empty() && words[0] == shape.word())
            if (auto call = call_by(shape, words)) return call;
    return {};
}

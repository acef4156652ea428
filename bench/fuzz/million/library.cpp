/* The memory calls that the library asks for stand here in place of those of its archive. */
#include "library.h"
#include "celdrinn.h"
#include <cstdlib>
#include <cstring>

namespace {

struct Memory {
    size_t calls = 0, live = 0;
    Fault fault;
    bool refuses() {
        calls++;
        return (fault.what == Fault::What::RefuseOnce && calls == fault.at) || (fault.what == Fault::What::RefuseFrom && calls >= fault.at);
    }
} memory;

struct Block {
    uint64_t is_there;
    void *at;
};
char none;
Block as_block(void *at) { return {at != nullptr, at != nullptr ? at : &none}; }

constexpr size_t ROOM = size_t(1) << 24, LINE_ROOM = 4096;
uint8_t made[ROOM], line[LINE_ROOM];
constexpr uint8_t UNTOUCHED = 0xa5;

celdrinn_word word_of(const Bytes &text, const Case &what) {
    const auto bytes = [](const Bytes &b) { return reinterpret_cast<const uint8_t *>(b.data()); };
    auto file = what.files.find(text);
    if (file == what.files.end()) return {bytes(text), text.size(), bytes(text), 0, 0};
    return {bytes(text), text.size(), bytes(file->second), file->second.size(), 1};
}

/* the words of the commands that have a call of their own, and how many of them name files that are read */
const std::vector<std::pair<std::vector<Bytes>, size_t>> BY_NAME = {
    {{"simplify", "IN", "OUT", "LOG"}, 1}, {{"check", "IN", "OUT", "LOG"}, 3}, {{"rebuild", "IN", "OUT", "LOG", "SKOLEM", "CERT"}, 4}};
bool has_own_call(const Case &what) {
    if (!what.is_by_name || !what.moves.empty() || (what.fault.what != Fault::What::None && !what.fault.refuses())) return false;
    for (const auto &[words, reads] : BY_NAME) {
        if (what.words != words) continue;
        for (size_t at = 1; at < words.size(); at++)
            if (what.files.count(words[at]) != (at <= reads)) return false;
        return true;
    }
    return false;
}

} // namespace

extern "C" {
Block rattle_alloc(size_t size, size_t align) {
    if (memory.refuses()) return as_block(nullptr);
    memory.live++;
    return as_block(std::malloc(size ? size : align));
}
Block rattle_realloc(void *at, size_t, size_t size, size_t align) {
    if (memory.refuses()) return as_block(nullptr);
    return as_block(std::realloc(at, size ? size : align));
}
void rattle_dealloc(void *at) {
    memory.live--;
    std::free(at);
}
}

namespace {

void take_line(Answer &answer, size_t size, size_t room) {
    if (size <= room) answer.line.assign(reinterpret_cast<char *>(line), size);
    else answer.line.assign(size, '?');
    if (!answer.line.empty() && answer.line.back() == '\n') answer.line.pop_back();
    else if (size && size <= room) answer.wrong = "a line without its end";
}

Answer play_by_name(const Case &what) {
    constexpr size_t HALF = ROOM / 2;
    const auto bytes = [&](const char *name) { return reinterpret_cast<const uint8_t *>(what.files.at(name).data()); };
    const auto size = [&](const char *name) { return what.files.at(name).size(); };
    celdrinn_lengths lengths{1, 1, 1};
    Answer answer;
    if (what.words[0] == "simplify") {
        answer.status = celdrinn_simplify(bytes("IN"), size("IN"), made, HALF, made + HALF, HALF, line, LINE_ROOM, &lengths);
        if (lengths.log) answer.made["LOG"].assign(reinterpret_cast<char *>(made + HALF), lengths.log);
        if (lengths.output) answer.made["OUT"].assign(reinterpret_cast<char *>(made), lengths.output);
    } else if (what.words[0] == "check") {
        answer.status =
            celdrinn_check(bytes("IN"), size("IN"), bytes("OUT"), size("OUT"), bytes("LOG"), size("LOG"), line, LINE_ROOM, &lengths);
        if (lengths.output || lengths.log) answer.wrong = "lengths of files that `check` does not make";
    } else {
        answer.status = celdrinn_rebuild(bytes("IN"), size("IN"), bytes("OUT"), size("OUT"), bytes("LOG"), size("LOG"), bytes("SKOLEM"),
                                         size("SKOLEM"), made, ROOM, line, LINE_ROOM, &lengths);
        if (lengths.output) answer.made["CERT"].assign(reinterpret_cast<char *>(made), lengths.output);
        if (lengths.log) answer.wrong = "a length for a log that `rebuild` does not make";
    }
    take_line(answer, lengths.line, LINE_ROOM);
    return answer;
}

Answer play_words(const Case &what) {
    std::vector<celdrinn_word> words;
    for (const Bytes &text : what.words) words.push_back(word_of(text, what));
    std::vector<size_t> lengths(words.size() + 1, 0);
    const size_t made_room = what.fault.what == Fault::What::ShortMade ? what.fault.at : ROOM;
    const size_t line_room = what.fault.what == Fault::What::ShortLine ? what.fault.at : LINE_ROOM;
    celdrinn_word nothing{made, 0, made, 0, 0};
    const celdrinn_word *first = words.empty() ? &nothing : words.data();
    size_t line_size = 0;
    if (made_room < ROOM) made[made_room] = UNTOUCHED;
    if (line_room < LINE_ROOM) line[line_room] = UNTOUCHED;
    Answer answer;
    if (what.moves.empty())
        answer.status = celdrinn_run(first, words.size(), lengths.data(), words.size(), made, made_room, line, line_room, &line_size);
    else
        answer.status = celdrinn_run_listed(first, words.size(), reinterpret_cast<const uint8_t *>(what.moves.data()), what.moves.size(),
                                            lengths.data(), words.size(), made, made_room, line, line_room, &line_size, &answer.wrong_line);
    if (made_room < ROOM && made[made_room] != UNTOUCHED) answer.wrong = "a byte is written behind the room for files";
    if (line_room < LINE_ROOM && line[line_room] != UNTOUCHED) answer.wrong = "a byte is written behind the room for the line";
    take_line(answer, line_size, line_room);
    size_t sum = 0;
    for (size_t at = 0; at < words.size(); at++) sum += lengths[at];
    const uint8_t *from = made;
    for (size_t at = 0; at < words.size(); from += lengths[at], at++) {
        if (lengths[at] && words[at].is_given) answer.wrong = "a length for a file that was given";
        if (!lengths[at]) continue;
        if (sum <= made_room) answer.made[what.words[at]].assign(reinterpret_cast<const char *>(from), lengths[at]);
        else answer.made[what.words[at]].assign(lengths[at], '?');
    }
    return answer;
}

} // namespace

Answer play(const Case &what) {
    memory = Memory{0, 0, what.fault.refuses() ? what.fault : Fault()};
    Answer answer = has_own_call(what) ? play_by_name(what) : play_words(what);
    answer.allocations = memory.calls, answer.lost = memory.live;
    return answer;
}

/* A call: its words, the files that it is given, and what is planned to go wrong; and what a command is asked for by its words. */
#pragma once
#include "text.h"
#include <map>
#include <optional>

struct Fault {
    /* memory is refused once, or from there on; too little room for what is made, or for the line */
    enum class What { None, RefuseOnce, RefuseFrom, ShortMade, ShortLine } what = What::None;
    size_t at = 0;
    bool refuses() const { return what == What::RefuseOnce || what == What::RefuseFrom; }
};
struct Case {
    std::vector<Bytes> words;
    std::map<Bytes, Bytes> files; /* a name that is not here is one of no file, which is read as one of no bytes */
    Bytes moves;                  /* what is tried first; no bytes: no list of moves */
    bool is_by_name = false;      /* played by the library's call of that name, where there is one for these words and files */
    Fault fault;
};
struct Answer {
    int status = -1;
    Bytes line; /* without its LF */
    std::map<Bytes, Bytes> made;
    size_t wrong_line = 0;            /* of the moves */
    size_t allocations = 0, lost = 0; /* blocks that were taken, and that were not given back */
    Bytes wrong;                      /* about lengths and room; empty: nothing */
};

/* a command, as its words ask for it */
struct Call {
    Bytes verb;
    std::vector<Bytes> reads, makes; /* the names, in the order of the command's operands */
    std::optional<uint64_t> budget;
    uint64_t grow = 0, expand = 16, part = 1, parts = 0, seed = 0, size = 0;
    bool plain = false, herbrand = false, binary = false;
};
/* nothing exactly where the words are no command */
std::optional<Call> call_of(const std::vector<Bytes> &words);
bool is_utf8(const Bytes &word);

struct Shape {
    const char *verb;
    std::vector<const char *> reads, makes;
    std::vector<const char *> options; /* without `--` and what is behind `=` */
    const char *other = nullptr;       /* the word of the command, where it is not the verb */
    const char *word() const { return other ? other : verb; }
};
const std::vector<Shape> &shapes();
const Shape *shape_of(const Bytes &verb);

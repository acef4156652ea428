/* What is to be said of a whole log, proof or share of one. */
#pragma once
#include "run.h"

/* what is carried back over a step, for Skolem functions (undo) or for Herbrand functions (reversals) */
struct Entry {
    enum class What { Pivot, Removed, Fresh, Added, Turned, Plain } what;
    int literal; /* the pivot, or the variable */
    std::vector<Clause> outer;
    Clause same, inner; /* of a plain drop */
};
struct Trail {
    std::vector<Entry> undo, reversals;
};

struct Part {
    uint64_t number = 1, parts = 1;
    bool is_own(uint64_t place) const { return place / 1000 % parts == number - 1; }
};

struct Judged {
    Bytes refusal;         /* 'line L cause K' or 'end cause K'; empty: none */
    uint64_t steps = 0;    /* those of the part */
    uint64_t extended = 0; /* the line of the first extended drop; 0: none */
    Trail trail;
    uint64_t kinds[5][5] = {}; /* by kind and reason */
};

enum class Profile { Plain, Any };
Judged judge(const Formula &input, const Formula &output, View log, Profile profile, Part part = {}, bool keeps_trail = false);
/* steps up to the empty clause, of which deletions need no reason; with or without a look at proof parts */
Judged refute(const Formula &input, Steps &steps, Part part = {}, bool keeps_trail = false, bool has_hints = false);

struct Applied {
    Bytes refusal;
    Formula formula;
    uint64_t steps = 0, broken = 0; /* the line in which the log breaks off; 0: it doesn't */
};
Applied apply(const Formula &input, View log);

const char *kind_name(size_t kind);
const char *reason_name(size_t reason);

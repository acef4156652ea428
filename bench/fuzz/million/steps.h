/* The steps of a proof: of a log of either profile, or of a binary proof, one after the other (docs/FORMATS.md, "Proof logs", "Logs with
 * hints", "Proofs of SAT solvers"). */
#pragma once
#include "text.h"
#include <memory>

constexpr int64_t MOST_LITERAL = 2147483647;

struct Group {
    int64_t target;
    std::vector<int64_t> hints;
};
struct Proof {
    int kind = 0; /* 0: no proof part; 1 hints, in a group without a target; 2 groups; 3 by reach */
    std::vector<Group> groups;
};
enum class Kind : char { Add = 'a', Delete = 'd', Drop = 'u', Fresh = 'e', Remove = 'r' };
struct Step {
    Kind kind = Kind::Add;
    uint64_t line = 0;
    std::vector<int> literals; /* as written */
    int64_t number = 0;        /* of the clause, in a log with hints */
    Proof proof;
    int first() const { return literals.empty() ? 0 : literals[0]; }
    bool is_of_clause() const { return kind == Kind::Add || kind == Kind::Delete || kind == Kind::Drop; }
    bool names_clause() const { return kind == Kind::Delete || kind == Kind::Drop; }
};

class Steps {
  public:
    virtual ~Steps() = default;
    virtual bool next(Step &step) = 0; /* whether there is one more; throws Refused */
};

bool is_hinted(View text);
bool is_binary(View text); /* by its first bytes */
std::unique_ptr<Steps> text_steps(View text);
std::unique_ptr<Steps> hinted_steps(View text);
std::unique_ptr<Steps> binary_steps(View text);

/* the whole steps of a log, and where it ends otherwise: broken off within a step, or by a word that does not fit */
struct Whole {
    std::vector<Step> steps;
    uint64_t line = 0; /* where it ends so; 0: at the end of a step */
    bool is_bad = false;
};
Whole whole_steps(View text);

Bytes step_text(const Step &step); /* without a proof part */

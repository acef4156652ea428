/* What each command has to answer to a case, by the reference. */
#pragma once
#include "call.h"
#include "judge.h"

struct Notes {
    Bytes kind;                     /* what the case is counted as */
    Bytes answer;                   /* what the answer is counted as */
    uint64_t steps[5][5] = {};      /* the valid steps of logs, by kind and reason */
    std::vector<const char *> seen; /* what else was judged */
};

/* what is wrong with an answer; empty: nothing */
Bytes judge_answer(const Case &what, const Answer &answer, Notes &notes);

/* What an answer has to be, and is not. */
#pragma once
#include "text.h"

struct Wrong {
    Bytes what;
};
inline void want(bool holds, const Bytes &what) {
    if (!holds) throw Wrong{what};
}
inline Bytes number(uint64_t n) { return std::to_string(n); }

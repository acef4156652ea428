/* The words of a text, and the numbers that words are: docs/FORMATS.md, "Tokens". Here and in all that judges nothing is taken from the
 * program: a difference between the two is a mistake of one of them. */
#pragma once
#include <cstdint>
#include <string>
#include <string_view>
#include <vector>

using Bytes = std::string;
using View = std::string_view;

/* the first offence of a text; line 0 is its end where no line is told */
struct Refused {
    uint64_t line;
    int cause;
};

struct Word {
    View text;
    uint64_t line;
};
struct Words {
    explicit Words(View text);
    std::vector<Word> list;
    uint64_t end = 1;     /* the line of the end */
    bool is_open = false; /* nothing stands behind the last word, so it may go on */
};

constexpr int64_t GREATEST = int64_t(1) << 62; /* what a number above it is taken as */
/* whether the word is a number; -0 and +1 are none */
bool number_of(View word, int64_t &value);
/* whether it is one without a sign */
bool plain_number_of(View word, int64_t &value);

Bytes number_text(int64_t value);
/* the lines with their LF; what is behind the last one too, where there is something */
std::vector<View> lines_with_ends(View text);

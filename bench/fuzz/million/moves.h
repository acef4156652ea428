/* Lists of moves (docs/FORMATS.md, "Lists of moves"). */
#pragma once
#include "text.h"
#include <utility>

/* the rules by their words, each with what stands behind it: N a number, L a literal */
const std::vector<std::pair<View, View>> &rules();
/* the number of the first line that is no move, counted from 1; 0: there is none */
size_t wrong_move(View moves);

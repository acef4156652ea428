/* What is to be said where memory was refused, or where there was little room. Both throw Wrong. */
#pragma once
#include "call.h"

/* the status is 6: each file is the front of one that might have been written */
void judge_want_of_memory(const Case &what, const Call &call, const Answer &answer);
/* the answer is as with much room, but that files and lines that don't fit are not there */
void judge_short(const Case &what, const Answer &answer);

/* The canonical text of logs (docs/FORMATS.md, "Proof logs", "Logs with hints"). */
#pragma once
#include "steps.h"

/* a line for each step: its letter, the first literal, the others in literal order; its proof part, where it has one */
Bytes canonical_text(const Step &step);
/* throws Refused where the text is no log */
bool is_canonical_log(View text, bool has_hints);
/* whether the log with hints has all these steps, or so many of them */
bool has_steps_of(Steps &steps, View hinted, uint64_t most = UINT64_MAX);

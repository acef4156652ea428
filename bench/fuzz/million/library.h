/* Calls of the released library, in this process: the proved `celdrinn_run`, `celdrinn_run_listed` where moves are listed, and the calls
 * for one command; with memory that can be refused and counted. */
#pragma once
#include "call.h"

Answer play(const Case &what);

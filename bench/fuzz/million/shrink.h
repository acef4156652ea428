/* A case with a difference, made small, and kept. */
#pragma once
#include "call.h"

/* what is wrong with a case, in a process of its own, which may crash or find no end */
Bytes wrong_by_itself(const Case &what);
Case made_small(Case what);
void keep(const Case &what, const Bytes &folder, const Bytes &head);

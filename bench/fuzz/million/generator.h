/* The formula of `gen`: its words come from PCG XSH RR 64/32, seeded as rand_core seeds from one number. */
#pragma once
#include "formula.h"

Formula generated(uint64_t seed, uint64_t size);

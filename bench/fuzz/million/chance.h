/* Numbers by chance: the same seed and case give the same ones on each machine (splitmix64). */
#pragma once
#include <cstddef>
#include <cstdint>
#include <initializer_list>
#include <utility>

class Chance {
  public:
    Chance(uint64_t seed, uint64_t number) : state_(seed * 0x9e3779b97f4a7c15u + number) { state_ = next() ^ number; }
    uint64_t next() {
        uint64_t z = (state_ += 0x9e3779b97f4a7c15u);
        z = (z ^ (z >> 30)) * 0xbf58476d1ce4e5b9u;
        z = (z ^ (z >> 27)) * 0x94d049bb133111ebu;
        return z ^ (z >> 31);
    }
    /* from 0 to count - 1 */
    size_t below(size_t count) { return static_cast<size_t>(next() % count); }
    int64_t between(int64_t least, int64_t most) { return least + static_cast<int64_t>(below(static_cast<size_t>(most - least + 1))); }
    bool odds(double share) { return static_cast<double>(next() >> 11) < share * 9007199254740992.0; }
    bool coin() { return next() >> 63; }
    template <class Row> auto &of(Row &row) { return row[below(row.size())]; }
    template <class Thing> Thing among(std::initializer_list<Thing> row) { return row.begin()[below(row.size())]; }
    template <class Row> void shuffle(Row &row) {
        for (size_t left = row.size(); left > 1; left--) std::swap(row[left - 1], row[below(left)]);
    }

  private:
    uint64_t state_;
};

/* Counts by name, in memory that all jobs share, so they are there whatever becomes of a job. */
#pragma once
#include <atomic>
#include <cstdint>
#include <cstdio>
#include <string>
#include <unordered_map>

constexpr int MOST_JOBS = 64;
struct Shared {
    static constexpr size_t ENTRIES = 8192, LONGEST = 120;
    struct Job {
        std::atomic<uint64_t> number; /* of the case that is played */
        std::atomic<uint64_t> played;
    };
    struct Entry {
        char name[LONGEST];
        std::atomic<uint64_t> count;
    };
    Job jobs[MOST_JOBS];
    std::atomic_flag is_busy;
    std::atomic<size_t> size;
    Entry entries[ENTRIES];
};
Shared *new_shared(); /* nullptr: no memory */

/* one job's way to the counts */
class Counts {
  public:
    explicit Counts(Shared &shared) : shared_(shared) {}
    void add(const std::string &table, const std::string &row, const std::string &column, uint64_t count = 1);

  private:
    Shared &shared_;
    std::unordered_map<std::string, size_t> places_;
    size_t place_of(const std::string &name);
};

void show_counts(const Shared &shared, FILE *out);
uint64_t played(const Shared &shared);

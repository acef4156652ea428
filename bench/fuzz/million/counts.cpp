/* Names are three words with tabs between them: the table, the row, the column. */
#include "counts.h"
#include <algorithm>
#include <cstring>
#include <map>
#include <sys/mman.h>
#include <vector>

Shared *new_shared() {
    void *at = mmap(nullptr, sizeof(Shared), PROT_READ | PROT_WRITE, MAP_SHARED | MAP_ANONYMOUS, -1, 0);
    return at == MAP_FAILED ? nullptr : new (at) Shared();
}

size_t Counts::place_of(const std::string &name) {
    auto known = places_.find(name);
    if (known != places_.end()) return known->second;
    while (shared_.is_busy.test_and_set()) continue;
    size_t place = 0;
    while (place < shared_.size && name.compare(0, Shared::LONGEST - 1, shared_.entries[place].name) != 0) place++;
    if (place == shared_.size && place < Shared::ENTRIES) {
        std::strncpy(shared_.entries[place].name, name.c_str(), Shared::LONGEST - 1);
        shared_.size++;
    }
    shared_.is_busy.clear();
    return places_[name] = std::min(place, Shared::ENTRIES - 1);
}
void Counts::add(const std::string &table, const std::string &row, const std::string &column, uint64_t count) {
    shared_.entries[place_of(table + "\t" + row + "\t" + column)].count += count;
}

uint64_t played(const Shared &shared) {
    uint64_t sum = 0;
    for (const auto &job : shared.jobs) sum += job.played;
    return sum;
}

void show_counts(const Shared &shared, FILE *out) {
    using Row = std::map<std::string, uint64_t>;
    std::map<std::string, std::map<std::string, Row>> tables;
    for (size_t at = 0; at < shared.size; at++) {
        const std::string name = shared.entries[at].name;
        const size_t first = name.find('\t'), second = name.find('\t', first + 1);
        tables[name.substr(0, first)][name.substr(first + 1, second - first - 1)][name.substr(second + 1)] = shared.entries[at].count;
    }
    for (const auto &[table, rows] : tables) {
        std::fprintf(out, "%s\n", table.c_str());
        for (const auto &[row, columns] : rows) {
            uint64_t sum = 0;
            for (const auto &column : columns) sum += column.second;
            std::fprintf(out, "  %-34s %10llu  ", row.c_str(), static_cast<unsigned long long>(sum));
            for (const auto &[column, count] : columns)
                if (!column.empty()) std::fprintf(out, " %s: %llu;", column.c_str(), static_cast<unsigned long long>(count));
            std::fprintf(out, "\n");
        }
    }
}

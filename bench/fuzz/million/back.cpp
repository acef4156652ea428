/* The entries of a trail, from the last to the first. */
#include "back.h"
#include <cstdlib>
#include <set>

using What = Entry::What;

static Table value_of(const Values &values, int literal) { return literal > 0 ? values.at(literal) : ~values.at(-literal); }

bool has_one_role_each(const Formula &input, const std::vector<Entry> &entries) {
    std::set<int> seen;
    for (const Bound &bound : input.prefix) seen.insert(bound.variable);
    for (const Entry &entry : entries)
        if (entry.what == What::Fresh && !seen.insert(entry.literal).second) return false;
    return true;
}

Values carried_back(Values values, const std::vector<Entry> &undo, size_t variables) {
    for (auto entry = undo.rbegin(); entry != undo.rend(); ++entry) {
        const int v = std::abs(entry->literal);
        if (entry->what == What::Removed) {
            values[v] = Table(variables, false);
        } else if (entry->what == What::Fresh) {
            values.erase(v);
        } else {
            const Table h = table_of(entry->outer, values, variables);
            values[v] = entry->literal > 0 ? values.at(v) | h : values.at(v) & ~h;
        }
    }
    return values;
}

/* each circuit with another value in place of an input */
static void replace(Values &values, const std::map<int, size_t> &inputs, int v, const Table &value) {
    const size_t index = inputs.at(v);
    for (auto &[variable, table] : values)
        if (!inputs.count(variable)) table = (table.with(index, true) & value) | (table.with(index, false) & ~value);
}

static void take_plain(Values &values, const Entry &entry, size_t variables) {
    Table q(variables, true);
    for (int k : entry.same) q &= ~value_of(values, k);
    Clause all = entry.inner;
    all.push_back(entry.literal);
    for (int k : all) {
        Table &circuit = values.at(std::abs(k));
        circuit = k > 0 ? circuit & ~q : circuit | q;
    }
}

Values carried_forth(Values values, const std::map<int, size_t> &inputs, const std::vector<Entry> &reversals, size_t variables) {
    for (auto entry = reversals.rbegin(); entry != reversals.rend(); ++entry) {
        const int v = std::abs(entry->literal);
        if (entry->what == What::Fresh) {
            replace(values, inputs, v, Table(variables, false));
        } else if (entry->what == What::Removed) {
            values[v] = Table(variables, false);
        } else if (entry->what == What::Plain) {
            take_plain(values, *entry, variables);
        } else {
            const Table h = table_of(entry->outer, values, variables);
            const bool is_added = entry->what == What::Added, is_set = is_added == (entry->literal > 0);
            const Table value = is_set ? values.at(v) | h : values.at(v) & ~h;
            if (is_added) replace(values, inputs, v, value);
            else values[v] = value;
        }
    }
    return values;
}

// The shared library from C++: a formula from vectors, simplified under a limit, and what is left of it.
// docs/PIPELINES.md, "From a program in C", says how it is compiled.
#include "celdrinn2.h"
#include <cstdlib>
#include <iostream>
#include <memory>
#include <vector>

struct Free {
    void operator()(celdrinn *c) const { celdrinn_free(c); }
};
using Session = std::unique_ptr<celdrinn, Free>;

static void add(const Session &session, const std::vector<int> &clause) {
    for (int literal : clause) celdrinn_add(session.get(), literal);
    celdrinn_add(session.get(), 0);
}

int main() {
    const std::vector<int> outer{1, 2}, inner{3, 4, 5};
    const std::vector<std::vector<int>> clauses{{1, 3, 4}, {-1, -3, 5}, {2, -4, -5}, {-2, 4, 3}, {1, 2, -5}};
    Session session(celdrinn_new());
    if (!session) return 6;
    celdrinn_block(session.get(), 'a', outer.data(), outer.size());
    celdrinn_block(session.get(), 'e', inner.data(), inner.size());
    for (const auto &clause : clauses) add(session, clause);
    celdrinn_limit_seconds(session.get(), 10);

    const int status = celdrinn_do_simplify(session.get());
    std::cout << celdrinn_line(session.get()) << '\n';
    celdrinn_formula left;
    if (celdrinn_out(session.get(), &left) != 0) return status;
    std::vector<int> row;
    for (std::size_t i = 0; i < left.literals_count; i++) {
        if (left.literals[i] != 0) {
            row.push_back(left.literals[i]);
            continue;
        }
        for (int literal : row) std::cout << literal << ' ';
        std::cout << "0\n";
        row.clear();
    }
    return status;
}

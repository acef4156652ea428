// The search of `solve`, unproved: values in the order of the prefix, 0 first, with counts of true literals and of open existential literals.
// It makes no circuits. search FILE [BUDGET] prints the answer, the decisions and the processor seconds of the search.
// g++ -std=c++17 -O2 -o bench/out/search bench/search.cpp
#include <cstdio>
#include <cstdlib>
#include <cstring>
#include <ctime>
#include <algorithm>
#include <string>
#include <vector>

struct Count { unsigned trues, opens; bool both; };

static std::vector<int> order;              // variables in the order of the prefix
static std::vector<char> universal;         // by place
static std::vector<std::vector<int>> holders[2];  // by sign and place
static std::vector<Count> counts;
static size_t untrue = 0, lost = 0;

static bool is_lost(const Count &c) { return !c.both && c.trues == 0 && c.opens == 0; }

static void shift(const std::vector<int> &row, int trues, int opens) {
    for (int at : row) {
        Count &c = counts[at];
        untrue -= c.trues == 0;
        lost -= is_lost(c);
        c.trues += trues;
        c.opens += opens;
        untrue += c.trues == 0;
        lost += is_lost(c);
    }
}

static void change(size_t place, bool value, int sign) {
    int opens = universal[place] ? 0 : -sign;
    shift(holders[!value][place], sign, opens);
    if (opens) shift(holders[value][place], 0, opens);
}

int main(int argc, char **argv) {
    FILE *in = argc > 1 ? fopen(argv[1], "r") : nullptr;
    if (!in) return 1;
    std::vector<std::vector<int>> clauses;
    std::vector<int> place_of, clause;
    char word[64];
    int quant = 0;
    while (fscanf(in, "%63s", word) == 1) {
        if (!strcmp(word, "c")) { while (int ch = fgetc(in)) if (ch == '\n' || ch == EOF) break; continue; }
        if (!strcmp(word, "p")) { int a, b; if (fscanf(in, "%63s %d %d", word, &a, &b) != 3) return 1; place_of.assign(a + 1, -1); continue; }
        if (!strcmp(word, "e")) { quant = 'e'; continue; }
        if (!strcmp(word, "a")) { quant = 'a'; continue; }
        int lit = atoi(word);
        if (quant) {
            if (lit == 0) { quant = 0; continue; }
            place_of[lit] = (int)order.size();
            order.push_back(lit);
            universal.push_back(quant == 'a');
        } else if (lit == 0) { clauses.push_back(clause); clause.clear(); }
        else clause.push_back(lit);
    }
    fclose(in);
    holders[0].resize(order.size());
    holders[1].resize(order.size());
    for (size_t i = 0; i < clauses.size(); i++) {
        auto &c = clauses[i];
        std::sort(c.begin(), c.end());
        c.erase(std::unique(c.begin(), c.end()), c.end());
        Count count{0, 0, false};
        for (int l : c) {
            int p = place_of[abs(l)];
            count.opens += !universal[p];
            count.both |= std::binary_search(c.begin(), c.end(), -l);
            holders[l < 0][p].push_back((int)i);
        }
        counts.push_back(count);
        untrue++;
        lost += is_lost(count);
    }
    clock_t begin = clock();
    std::vector<char> path;
    unsigned long long decisions = 0, budget = argc > 2 ? strtoull(argv[2], nullptr, 10) : ~0ull;
    bool won = false, done = false, spent = false;
    while (!done) {
        if (lost == 0 && untrue != 0) {
            if (decisions == budget) { spent = true; break; }
            decisions++;
            change(path.size(), false, 1);
            path.push_back(0);
            continue;
        }
        won = lost == 0;
        done = true;
        while (!path.empty()) {
            bool value = path.back();
            path.pop_back();
            size_t p = path.size();
            change(p, value, -1);
            if (!value && (universal[p] ? won : !won)) {
                change(p, true, 1);
                path.push_back(1);
                done = false;
                break;
            }
        }
    }
    printf("%s %llu %.2f\n", spent ? "unknown" : won ? "true" : "false", decisions, double(clock() - begin) / CLOCKS_PER_SEC);
}

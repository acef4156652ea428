// The search of `validate`, unproved: one pass over the gates tells a node and the nodes of five levels below it, two words a gate, or
// all nodes to which zeros lead from a node, one number a gate.
// blocks IN CERT [BUDGET] prints the answer, the branches, the passes and the processor seconds of the search. It trusts that CERT
// fits IN.
// g++ -std=c++17 -O2 -o bench/out/blocks bench/blocks.cpp
#include <cstdint>
#include <cstdio>
#include <cstdlib>
#include <cstring>
#include <ctime>
#include <algorithm>
#include <string>
#include <unordered_map>
#include <vector>

typedef uint64_t u64;
struct Known { u64 zero, one; };
struct Since { size_t after; bool value; };
static const int DEPTH = 5;
static u64 masks[2][DEPTH];

static std::vector<int> inputs;                     // names, in the order of the file
static std::vector<std::pair<unsigned, unsigned>> gates;  // operands as places: 2 * (1 + input or inputs + gate) + sign
static std::vector<std::vector<std::pair<int, unsigned>>> clauses;  // sign and literal, or a missing universal where the literal is 0
static std::vector<Known> row;
static std::vector<Since> line_row;
static unsigned long long passes = 0;

static Known flip(Known k, bool sign) { return sign ? Known{k.one, k.zero} : k; }

static void survey(const std::vector<char> &path, size_t base, u64 &lost, u64 &won) {
    passes++;
    row[0] = {~0ull, 0};
    for (size_t i = 0; i < inputs.size(); i++) {
        if (i < base) row[1 + i] = path[i] ? Known{0, ~0ull} : Known{~0ull, 0};
        else if (i - base < DEPTH) row[1 + i] = {masks[0][i - base], masks[1][i - base]};
        else row[1 + i] = {0, 0};
    }
    size_t at = 1 + inputs.size();
    for (auto &g : gates) {
        Known a = flip(row[g.first / 2], g.first & 1), b = flip(row[g.second / 2], g.second & 1);
        row[at++] = {a.zero | b.zero, a.one & b.one};
    }
    lost = 0;
    won = ~0ull;
    for (auto &c : clauses) {
        u64 zero = ~0ull, one = 0;
        for (auto &l : c) {
            Known k = flip(row[l.second / 2], (l.second & 1) != 0);
            zero &= k.zero;
            one |= k.one;
        }
        lost |= zero & ~one;
        won &= one;
    }
}

static Since both(Since a, Since b) {
    if (a.value != b.value) return a.value ? b : a;
    return (a.after < b.after) == a.value ? b : a;
}

static Since flip(Since s, bool sign) { return {s.after, s.value != sign}; }

static Since look_down(const std::vector<char> &path) {
    passes++;
    line_row[0] = {0, false};
    for (size_t i = 0; i < inputs.size(); i++) {
        if (i < path.size()) line_row[1 + i] = {0, path[i] != 0};
        else line_row[1 + i] = {i - path.size() + 1, false};
    }
    size_t at = 1 + inputs.size();
    for (auto &g : gates) line_row[at++] = both(flip(line_row[g.first / 2], g.first & 1), flip(line_row[g.second / 2], g.second & 1));
    Since all = {0, true};
    for (auto &c : clauses) {
        Since none = {0, true};
        for (auto &l : c) none = both(none, flip(line_row[l.second / 2], (l.second & 1) == 0));
        all = both(all, flip(none, true));
    }
    return all;
}

int main(int argc, char **argv) {
    if (argc < 3) return 1;
    for (int d = 0; d < DEPTH; d++)
        for (int n = 1; n < 64; n++) {
            int depth = 31 - __builtin_clz(n);
            if (depth > d) masks[n >> (depth - d - 1) & 1][d] |= 1ull << n;
        }
    FILE *cert = fopen(argv[2], "r");
    unsigned m, i, l, o, a;
    if (!cert || fscanf(cert, "aag %u %u %u %u %u", &m, &i, &l, &o, &a) != 5) return 1;
    std::vector<unsigned> in(i), out(o), place(m + 1, 0);
    for (auto &x : in) if (fscanf(cert, "%u", &x) != 1) return 1;
    for (auto &x : out) if (fscanf(cert, "%u", &x) != 1) return 1;
    for (unsigned k = 0; k < i; k++) place[in[k] / 2] = 1 + k;
    for (unsigned k = 0; k < a; k++) {
        unsigned x, y, z;
        if (fscanf(cert, "%u %u %u", &x, &y, &z) != 3) return 1;
        place[x / 2] = 1 + i + k;
        gates.push_back({y, z});
    }
    auto literal = [&](unsigned x) { return x < 2 ? x : 2 * place[x / 2] + (x & 1); };
    for (auto &g : gates) g = {literal(g.first), literal(g.second)};
    inputs.resize(i);
    std::unordered_map<int, unsigned> circuit;
    char word[64];
    while (fscanf(cert, "%63s", word) == 1) {
        unsigned at = atoi(word + 1);
        int name;
        if ((word[0] != 'i' && word[0] != 'o') || fscanf(cert, "%d", &name) != 1) break;
        circuit[name] = word[0] == 'i' ? 2 * (1 + at) : literal(out[at]);
    }
    fclose(cert);
    row.resize(1 + i + a);
    line_row.resize(1 + i + a);
    FILE *f = fopen(argv[1], "r");
    if (!f) return 1;
    std::vector<std::pair<int, unsigned>> clause;
    int skip = 0;
    while (fscanf(f, "%63s", word) == 1) {
        if (!strcmp(word, "c")) { while (int ch = fgetc(f)) if (ch == '\n' || ch == EOF) break; continue; }
        if (!strcmp(word, "p")) { if (fscanf(f, "%63s %*d %*d", word) != 1) return 1; continue; }
        if (!strcmp(word, "e") || !strcmp(word, "a")) { skip = 1; continue; }
        int lit = atoi(word);
        if (skip) { skip = lit != 0; continue; }
        if (lit == 0) { clauses.push_back(clause); clause.clear(); continue; }
        auto found = circuit.find(abs(lit));
        clause.push_back({lit, found == circuit.end() ? 0u : found->second ^ (lit < 0)});
    }
    fclose(f);
    clock_t begin = clock();
    std::vector<char> path;
    unsigned long long branches = 0, budget = argc > 3 ? strtoull(argv[3], nullptr, 10) : ~0ull;
    u64 lost = 0, won = 0;
    size_t base = ~(size_t)0, line_base = ~(size_t)0, reach = 0;
    Since line = {0, false};
    const char *answer = nullptr;
    while (!answer) {
        size_t depth = path.size();
        bool is_lost, is_won;
        bool in_block = base != ~(size_t)0 && depth - base <= DEPTH;
        if (!in_block && line_base == ~(size_t)0) {
            size_t leaves = reach < depth ? inputs.size() : reach;
            if (leaves > depth + 2 * DEPTH + 1) {
                line_base = depth;
                line = look_down(path);
            } else {
                base = std::min(depth, leaves > DEPTH ? leaves - DEPTH : 0);
                survey(path, base, lost, won);
                in_block = true;
            }
        }
        if (in_block) {
            unsigned node = 1;
            for (size_t k = base; k < depth; k++) node = 2 * node + path[k];
            is_lost = lost >> node & 1;
            is_won = won >> node & 1;
        } else {
            bool known = depth - line_base >= line.after;
            is_lost = known && !line.value;
            is_won = known && line.value;
        }
        if (is_lost) { answer = "invalid"; break; }
        if (is_won) reach = depth;
        else {
            if (branches == budget) { answer = "unknown"; break; }
            branches++;
            path.push_back(0);
            continue;
        }
        answer = "valid";
        while (!path.empty()) {
            bool value = path.back();
            path.pop_back();
            line_base = ~(size_t)0;
            if (base != ~(size_t)0 && base > path.size()) base = ~(size_t)0;
            if (!value) { path.push_back(1); answer = nullptr; break; }
        }
    }
    printf("%s %llu %llu %.2f\n", answer, branches, passes, double(clock() - begin) / CLOCKS_PER_SEC);
}

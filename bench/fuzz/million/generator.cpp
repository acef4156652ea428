/* M. E. O'Neill, PCG: A Family of Simple Fast Space-Efficient Statistically Good Algorithms for Random Number Generation, 2014. */
#include "generator.h"

namespace {

constexpr uint64_t MULTIPLIER = 6364136223846793005u;
uint32_t output(uint64_t state) {
    const uint32_t word = static_cast<uint32_t>(((state >> 18) ^ state) >> 27), turn = static_cast<uint32_t>(state >> 59);
    return word >> turn | word << (-turn & 31);
}

class Pcg {
  public:
    explicit Pcg(uint64_t seed) {
        uint32_t words[4];
        for (uint32_t &word : words) {
            seed = seed * MULTIPLIER + 11634580027462260723u;
            word = output(seed);
        }
        state_ = words[0] | static_cast<uint64_t>(words[1]) << 32;
        step_ = words[2] | static_cast<uint64_t>(words[3]) << 32 | 1;
        state_ += step_;
        next();
    }
    uint32_t next() {
        const uint64_t state = state_;
        state_ = state * MULTIPLIER + step_;
        return output(state);
    }

  private:
    uint64_t state_, step_;
};

} // namespace

Formula generated(uint64_t seed, uint64_t size) {
    const int n = 1 + static_cast<int>(size / 5);
    Pcg words(seed);
    Formula formula;
    for (int v = 1; v <= 4 * n; v++) formula.prefix.push_back({v > n && v <= 2 * n ? 'a' : 'e', v});
    for (uint64_t i = 0; i < size; i++) {
        const int first[] = {1, n + 1, 2 * n + 1, 2 * n + 1}, count[] = {n, n, 2 * n, 2 * n};
        std::vector<int> literals;
        for (int place = 0; place < 4; place++) {
            const uint32_t word = words.next();
            const int v = first[place] + static_cast<int>(word % static_cast<uint32_t>(count[place]));
            literals.push_back(word >= 2147483648u ? -v : v);
        }
        formula.matrix.push_back(clause_of(literals));
    }
    return formula;
}

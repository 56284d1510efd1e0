// Sets of numbers as 64-ary bitmap trees.
#ifndef BITS_HPP
#define BITS_HPP
#include <algorithm>
#include <cstddef>
#include <cstdint>
#include <vector>

static const uint32_t nothing = ~0u; // no row or scope

// A set of numbers below a bound, which finds the first member at or after a number.
class Bits {
    std::vector<std::vector<uint64_t>> levels;

public:
    static constexpr uint64_t none = ~0ull;

    explicit Bits(uint64_t bound) {
        do {
            bound = (bound + 63) / 64;
            levels.emplace_back(std::max<uint64_t>(bound, 1));
        } while (bound > 1);
    }

    void insert(uint64_t number) {
        for (auto &level : levels) {
            uint64_t &word = level[number / 64], before = word;
            word |= 1ull << number % 64;
            if (before) return;
            number /= 64;
        }
    }

    void remove(uint64_t number) {
        for (auto &level : levels) {
            uint64_t &word = level[number / 64];
            word &= ~(1ull << number % 64);
            if (word) return;
            number /= 64;
        }
    }

    uint64_t first(uint64_t number) const {
        for (size_t height = 0; height < levels.size(); height++) {
            if (number / 64 >= levels[height].size()) return none;
            if (uint64_t word = levels[height][number / 64] >> number % 64) {
                number += __builtin_ctzll(word);
                while (height--) number = number * 64 + __builtin_ctzll(levels[height][number]);
                return number;
            }
            number = number / 64 + 1;
        }
        return none;
    }
};
#endif

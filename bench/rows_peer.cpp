// The peer of bench/rows.sh: the same table and the same joins as plain C++ over 64-bit words, without a test a word.
#include <cstdint>
#include <cstdio>
#include <cstdlib>
#include <vector>

int main(int count, char **given) {
    if (count != 4) {
        return 1;
    }
    unsigned rows = std::atoi(given[1]), cols = std::atoi(given[2]), rounds = std::atoi(given[3]);
    const size_t width = (size_t(cols) + 63) / 64;
    std::vector<std::uint64_t> words(width * rows);
    for (unsigned c = 0; c < cols; c += 3) {
        words[c / 64] |= std::uint64_t(1) << (c % 64);
    }
    std::uint64_t changed = 0;
    for (unsigned round = 0; round < rounds; round++) {
        for (unsigned r = 1; r < rows; r++) {
            const std::uint64_t *source = &words[width * (r - 1)];
            std::uint64_t *target = &words[width * r];
            std::uint64_t fresh = 0;
            for (size_t k = 0; k < width; k++) {
                fresh |= source[k] & ~target[k];
                target[k] |= source[k];
            }
            changed += fresh != 0;
        }
    }
    std::printf("%llu joins changed a row\n", (unsigned long long)changed);
}

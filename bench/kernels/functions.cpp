// Sum, least, greatest and number of the values that are not NULL, row by row, over plain 32-bit integers, with a
// branch on NULL.
//
//   functions ROWS      prints nanoseconds a row of the quickest round
#include <chrono>
#include <cstdint>
#include <cstdio>
#include <random>
#include <string>
#include <vector>

int main(int, char** words) {
    const size_t rows = std::stoul(words[1]);
    std::mt19937 next(7);
    std::vector<int32_t> values(rows);
    std::vector<uint8_t> present(rows);
    for (size_t i = 0; i < rows; i++) { values[i] = int32_t(next()); present[i] = next() % 10 != 0; }
    double least_time = 1e9;
    int64_t shown = 0;
    for (int round = 0; round < 20; round++) {
        const auto start = std::chrono::steady_clock::now();
        int64_t sum = 0, count = 0;
        int32_t least = INT32_MAX, greatest = INT32_MIN;
        for (size_t i = 0; i < rows; i++) {
            if (present[i]) {
                const int32_t value = values[i];
                sum += value;
                count++;
                if (value < least) { least = value; }
                if (value > greatest) { greatest = value; }
            }
        }
        const std::chrono::duration<double, std::nano> taken = std::chrono::steady_clock::now() - start;
        if (taken.count() / rows < least_time) { least_time = taken.count() / rows; }
        shown += sum + count + least + greatest;
    }
    std::fprintf(stderr, "%lld\n", (long long)shown);
    std::printf("%f\n", least_time);
}

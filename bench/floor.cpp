// What the whole-number work of an until costs without proofs or checks: the engine's loops written by hand over the same
// memory, for rows of three entries, one of them the next state and one drawn at random.
//
//     g++ -O3 -march=native -std=c++17 bench/floor.cpp -o /tmp/floor && /tmp/floor
//
// Prints nanoseconds a cell, the best of twenty runs. A cell is one state of one layer: a lower and an upper word.
#include <algorithm>
#include <chrono>
#include <cstdint>
#include <cstdio>
#include <vector>

using u64 = std::uint64_t;
using u128 = unsigned __int128;

struct Words { u64 low, high; };
struct Sums { u128 low, high; };
struct Entry { std::uint32_t to; u64 num; };
struct Row { std::uint32_t place; Entry entries[3]; };

// A divisor of 63 bits with its reciprocal.
struct Divisor {
    u64 den, reciprocal;
    explicit Divisor(u64 den) : den(den), reciprocal(u64((((u128)1 << 126) - 1) / den)) {}
    u64 first(u128 products) const { return u64(((u128)u64((products * 4) >> 63) * reciprocal) >> 65); }
    u64 floor(u128 products) const {
        u64 quotient = first(products), rest = u64(products) - quotient * den;
        return quotient + (rest >= den);
    }
    u64 ceil(u128 products) const {
        u64 quotient = first(products), rest = u64(products) - quotient * den;
        return quotient + (rest > 0) + (rest > den);
    }
};

__attribute__((noinline)) static void step(const std::vector<Row> &rows, const Divisor &divisor, const Words *words, Words *next) {
    for (const Row &row : rows) {
        u128 low = 0, high = 0;
        for (const Entry &entry : row.entries) {
            low += (u128)entry.num * words[entry.to].low;
            high += (u128)entry.num * words[entry.to].high;
        }
        next[row.place] = {divisor.floor(low), divisor.ceil(high)};
    }
}

static Sums add(Sums sums, Words weights, Words words) {
    return {sums.low + (((u128)weights.low * words.low) >> 14), sums.high + (((u128)weights.high * words.high + 0x3fff) >> 14)};
}

__attribute__((noinline)) static void mix(std::vector<Sums> &sums, Words here, const Words *first, Words after, const Words *second) {
    for (std::size_t state = 0; state < sums.size(); ++state)
        sums[state] = add(add(sums[state], here, first[state]), after, second[state]);
}

static double nanoseconds_a_cell(std::uint32_t states, int layers) {
    u64 drawn = 1;
    auto draw = [&] { return (drawn = drawn * 6364136223846793005u + 1442695040888963407u) >> 33; };
    const u64 rate = 18, scale = (u64)1 << 58;
    const Divisor divisor(rate * scale);
    std::vector<Row> rows;
    for (std::uint32_t state = 0; state < states; ++state) {
        u64 near = 1 + draw() % 8, far = 1 + draw() % 8;
        rows.push_back({state, {{(state + 1) % states, near * scale}, {std::uint32_t(draw() % states), far * scale},
                                {state, (rate - near - far) * scale}}});
    }
    double best = 1e9;
    for (int run = 0; run < 20; ++run) {
        std::vector<Words> even(states, Words{0, 0}), odd(states, Words{0, 0});
        std::vector<Sums> sums(states, Sums{0, 0});
        even[states - 1] = {(u64)1 << 62, (u64)1 << 62};
        auto start = std::chrono::steady_clock::now();
        for (int layer = 0; layer < layers; layer += 2) {
            step(rows, divisor, even.data(), odd.data());
            mix(sums, {(u64)1 << 50, ((u64)1 << 50) + 1}, even.data(), {(u64)1 << 51, ((u64)1 << 51) + 1}, odd.data());
            step(rows, divisor, odd.data(), even.data());
        }
        best = std::min(best, std::chrono::duration<double>(std::chrono::steady_clock::now() - start).count());
    }
    return best / (double(states) * layers) * 1e9;
}

int main() {
    for (std::uint32_t states : {2000, 20000, 65536})
        std::printf("three_entries   states %6u ns/cell %5.1f\n", states, nanoseconds_a_cell(states, states > 30000 ? 100 : 400));
}

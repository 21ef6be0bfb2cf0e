// The questions of crates/bench/src/asking_table.rt as a plain loop over the words of a table.
// g++ -O2 -o table table.cpp && ./table
#include <chrono>
#include <cstdint>
#include <cstdio>
#include <vector>

struct Entry {
    uint32_t care, value;
};

static const uint32_t LOW = 0x3FFFFFFF;
static const uint32_t PATTERNS[5] = {0xAAAAAAAA, 0xCCCCCCCC, 0xF0F0F0F0, 0xFF00FF00, 0xFFFF0000};
static const uint32_t QUESTIONS = 200;

// The lanes of word w whose rows lie in the cube.
static uint32_t mask(uint32_t care, uint32_t value, uint32_t w) {
    if ((w & (care / 32)) != value / 32) return 0;
    uint32_t left = 0xFFFFFFFF;
    for (uint32_t k = 0; k < 5; k++) {
        uint32_t ones = (care >> k) % 2 ? PATTERNS[k] : 0;
        left &= (value >> k) % 2 ? ones : ~ones;
    }
    return left;
}

static int64_t ask(uint32_t n, const uint32_t *bits, uint32_t care, uint32_t value, bool wanted, const Entry *barred, size_t count) {
    uint32_t words = n <= 5 ? 1 : 1u << (n - 5);
    uint32_t used = n < 5 ? (1u << (1u << n)) - 1 : 0xFFFFFFFF;
    for (uint32_t w = 0; w < words; w++) {
        uint32_t left = (wanted ? bits[w] : ~bits[w]) & used & mask(care, value, w);
        for (size_t i = 0; i < count && left != 0; i++) left &= ~mask(barred[i].care & LOW, barred[i].value & LOW, w);
        if (left != 0) return 32 * w + __builtin_ctz(left);
    }
    return -1;
}

static uint32_t next(uint32_t &seed) {
    seed = seed * 1664525u + 1013904223u;
    return seed >> 16;
}

static Entry listed(uint32_t care, uint32_t value) { return {0x80000000u + care, 0xC0000000u + value}; }

static void measure(const char *name, const std::vector<uint32_t> &bits, uint32_t fixed, const Entry *barred, size_t count) {
    auto start = std::chrono::steady_clock::now();
    uint32_t seed = 7, sum = 0;
    for (uint32_t q = 0; q < QUESTIONS; q++) {
        uint32_t a = next(seed), b = next(seed);
        uint32_t care = a & b & fixed;
        int64_t row = ask(16, bits.data(), care, next(seed) & care, count > 0, barred, count);
        if (row >= 0) sum += (uint32_t)row + 1;
    }
    auto micros = std::chrono::duration_cast<std::chrono::microseconds>(std::chrono::steady_clock::now() - start).count();
    printf("%s %zu entries: %u questions, sum %u, %lld us\n", name, count, QUESTIONS, sum, (long long)micros);
}

static void rounds(const std::vector<uint32_t> &bits, size_t count) {
    std::vector<Entry> barred(count);
    uint32_t seed = 1;
    for (auto &e : barred) {
        uint32_t a = next(seed), b = next(seed);
        uint32_t care = a & b;
        e = listed(care, next(seed) & care);
    }
    measure("open cubes, scattered", bits, 0, barred.data(), count);
    measure("any cubes, scattered", bits, 0xFFFF, barred.data(), count);
    for (size_t i = 0; i < count; i++) barred[i] = listed(0xFFFF, (i % 512) * 97);
    barred[count - 1] = listed(0, 0);
    measure("open cubes, single", bits, 0, barred.data(), count);
}

int main() {
    std::vector<uint32_t> bits(2048, 0xFFFFFFFF);
    measure("open cubes,", bits, 0, nullptr, 0);
    measure("any cubes,", bits, 0xFFFF, nullptr, 0);
    rounds(bits, 64);
    rounds(bits, 512);
}

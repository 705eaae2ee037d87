// How a row of nets is best kept for an interpreter: a byte a value, or 32 values a word of 64 bits.
// Both loops evaluate the same tables by level, each by its word of values and by three loads, and
// both must come to the same values. It prints nanoseconds a table, the least of five runs.
#include <algorithm>
#include <chrono>
#include <cstdint>
#include <cstdio>
#include <random>
#include <vector>

struct Table {
    uint64_t truth;
    uint32_t inputs[3];
    uint32_t output;
};

struct Bytes {
    std::vector<uint8_t> values;
    explicit Bytes(size_t nets) : values(nets) {}
    unsigned get(uint32_t net) const { return values[net]; }
    void set(uint32_t net, unsigned value) { values[net] = uint8_t(value); }
};

struct Words {
    std::vector<uint64_t> words;
    explicit Words(size_t nets) : words(nets / 32 + 1) {}
    unsigned get(uint32_t net) const { return words[net / 32] >> (2 * (net % 32)) & 3; }
    void set(uint32_t net, unsigned value) {
        uint64_t &word = words[net / 32];
        unsigned at = 2 * (net % 32);
        word = (word & ~(uint64_t(3) << at)) | uint64_t(value) << at;
    }
};

template <typename Row>
static double run(const std::vector<Table> &tables, size_t first, size_t nets, int turns, uint64_t &sum) {
    Row row(nets);
    std::mt19937 random(1);
    auto begin = std::chrono::steady_clock::now();
    for (int turn = 0; turn < turns; turn++) {
        for (uint32_t net = 0; net < first; net++) row.set(net, random() & 1);
        for (const Table &table : tables) {
            unsigned a = row.get(table.inputs[0]), b = row.get(table.inputs[1]);
            unsigned c = row.get(table.inputs[2]);
            unsigned value = (a | b | c) > 1 ? 2 : table.truth >> (a + 2 * b + 60 * c) & 1;
            row.set(table.output, value);
        }
        for (uint32_t net = 0; net < nets; net++) sum = 3 * sum + row.get(net);
    }
    std::chrono::duration<double> taken = std::chrono::steady_clock::now() - begin;
    return taken.count() * 1e9 / turns / double(tables.size());
}

int main() {
    const uint32_t first = 500, count = 10000, width = 500;
    const int turns = 2000;
    std::mt19937 random(7);
    std::vector<Table> tables;
    for (uint32_t k = 0; k < count; k++) {
        // from the level before, which is the first nets for the first level
        uint32_t level = k / width, low = level == 0 ? 0 : first + (level - 1) * width;
        Table table = {uint64_t(random()) << 32 | random(), {}, first + k};
        for (uint32_t &input : table.inputs) input = low + random() % width;
        tables.push_back(table);
    }
    uint64_t one = 0, other = 0;
    double bytes = 1e9, words = 1e9;
    for (int time = 0; time < 5; time++) {
        bytes = std::min(bytes, run<Bytes>(tables, first, first + count, turns, one));
        words = std::min(words, run<Words>(tables, first, first + count, turns, other));
    }
    std::printf("a byte a value    %.2f ns a table\n32 values a word  %.2f ns a table\n", bytes, words);
    return one == other ? 0 : 1;
}

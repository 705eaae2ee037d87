// A clocked simulator for comparison: the tables by level, each with its rows as masks over bits.
// It reads what run.py writes: the numbers of nets, tables, registers, columns and outputs; each
// table as its output, `1` for an on-set or `0`, its inputs and its rows; each register as its
// data net, output net and start; the columns; the outputs; then the vectors.
#include <cstdint>
#include <cstdio>
#include <iostream>
#include <string>
#include <vector>

struct Row {
    std::vector<uint64_t> care, value;
};

struct Table {
    int output, on;
    std::vector<int> inputs;
    std::vector<Row> rows;
};

struct Register {
    int data, output, start;
};

static int number() {
    int n;
    std::cin >> n;
    return n;
}

static std::string word() {
    std::string w;
    std::cin >> w;
    return w;
}

static Table read_table() {
    Table table;
    table.output = number();
    table.on = number();
    table.inputs.resize(number());
    for (int &input : table.inputs) input = number();
    table.rows.resize(number());
    size_t words = (table.inputs.size() + 63) / 64;
    for (Row &row : table.rows) {
        row.care.assign(words, 0);
        row.value.assign(words, 0);
        std::string text = word();
        for (size_t i = 0; i < table.inputs.size(); i++) {
            if (text[i] != '-') row.care[i / 64] |= uint64_t(1) << (i % 64);
            if (text[i] == '1') row.value[i / 64] |= uint64_t(1) << (i % 64);
        }
    }
    return table;
}

static bool value_of(const Table &table, const std::vector<uint8_t> &nets) {
    uint64_t bits[16] = {0};
    for (size_t i = 0; i < table.inputs.size(); i++)
        bits[i / 64] |= uint64_t(nets[table.inputs[i]]) << (i % 64);
    for (const Row &row : table.rows) {
        bool matches = true;
        for (size_t k = 0; k < row.care.size() && matches; k++)
            matches = ((bits[k] ^ row.value[k]) & row.care[k]) == 0;
        if (matches) return table.on;
    }
    return !table.on;
}

static void put(std::string &line, const std::vector<uint8_t> &values) {
    if (values.empty()) line += '-';
    for (uint8_t value : values) line += char('0' + value);
}

int main() {
    std::ios::sync_with_stdio(false);
    std::vector<uint8_t> nets(number());
    std::vector<Table> tables(number());
    std::vector<Register> registers(number());
    std::vector<int> columns(number()), outputs(number());
    for (Table &table : tables) table = read_table();
    for (Register &r : registers) r.data = number(), r.output = number(), r.start = number();
    for (int &net : columns) net = number();
    for (int &net : outputs) net = number();
    std::vector<uint8_t> state, shown;
    for (const Register &r : registers) state.push_back(r.start);
    std::string vector, line;
    for (long turn = 0; std::cin >> vector; turn++) {
        for (size_t i = 0; i < columns.size(); i++) nets[columns[i]] = vector[i] == '1';
        for (size_t i = 0; i < state.size(); i++) nets[registers[i].output] = state[i];
        for (const Table &table : tables) nets[table.output] = value_of(table, nets);
        shown.clear();
        for (int net : outputs) shown.push_back(nets[net]);
        line = std::to_string(turn) + " ";
        put(line, shown);
        line += " ";
        put(line, state);
        puts(line.c_str());
        for (size_t i = 0; i < state.size(); i++) state[i] = nets[registers[i].data];
    }
    line = "end ";
    put(line, state);
    puts(line.c_str());
}

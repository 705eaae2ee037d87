// A clocked simulator for comparison: a byte a net, tables by level and by how many inputs they
// have, those of up to six as one word of their values, wider ones by their rows. It reads what
// interpreter.cpp reads, has the values 0 and 1 only, and is one loop a kind.
#include <algorithm>
#include <cstdint>
#include <cstdio>
#include <iostream>
#include <string>
#include <vector>

struct Table {
    int output, on, level;
    std::vector<int> inputs;
    std::vector<std::string> rows;
};

struct Register {
    int data, output, start;
};

// Tables of one kind that stand one after another: how many inputs, and where they begin and end.
struct Run {
    size_t width, first, end, inputs;
};

struct Code {
    std::vector<Run> runs;
    std::vector<uint64_t> truths;
    std::vector<uint32_t> inputs, outputs;
    std::vector<Table> tables;
};

static int number() {
    int n;
    std::cin >> n;
    return n;
}

static std::string word() {
    std::string w;
    std::cin >> w;
    return w;
}

static Table read_table() {
    Table table;
    table.output = number();
    table.on = number();
    table.inputs.resize(number());
    for (int &input : table.inputs) input = number();
    table.rows.resize(number());
    for (std::string &row : table.rows) row = table.inputs.empty() ? "" : word();
    return table;
}

// Whether some row has these values, one a place.
template <class Value> static bool value_of(const Table &table, Value value) {
    for (const std::string &row : table.rows) {
        size_t i = 0;
        while (i < row.size() && (row[i] == '-' || (row[i] == '1') == value(i))) i++;
        if (i == row.size()) return table.on;
    }
    return !table.on;
}

static Code code_of(std::vector<Table> tables, size_t count) {
    std::vector<int> levels(count, 0);
    for (Table &table : tables) {
        table.level = 1;
        for (int input : table.inputs) table.level = std::max(table.level, levels[input] + 1);
        levels[table.output] = table.level;
    }
    std::stable_sort(tables.begin(), tables.end(), [](const Table &a, const Table &b) {
        return std::make_pair(a.level, a.inputs.size()) < std::make_pair(b.level, b.inputs.size());
    });
    Code code;
    for (const Table &table : tables) {
        size_t width = table.inputs.size(), at = code.truths.size();
        if (code.runs.empty() || code.runs.back().width != width)
            code.runs.push_back({width, at, at, code.inputs.size()});
        code.runs.back().end++;
        uint64_t truth = 0;
        for (uint64_t place = 0; width <= 6 && place < uint64_t(1) << width; place++)
            if (value_of(table, [&](size_t i) { return bool(place >> i & 1); }))
                truth |= uint64_t(1) << place;
        code.truths.push_back(truth);
        code.outputs.push_back(table.output);
        code.inputs.insert(code.inputs.end(), table.inputs.begin(), table.inputs.end());
    }
    code.tables = std::move(tables);
    return code;
}

template <int WIDTH> static void set_run(const Code &code, const Run &run, uint8_t *nets) {
    const uint64_t *truths = code.truths.data();
    const uint32_t *outputs = code.outputs.data(), *inputs = code.inputs.data() + run.inputs;
    for (size_t k = run.first; k < run.end; k++, inputs += WIDTH) {
        uint64_t place = 0;
        for (int i = 0; i < WIDTH; i++) place |= uint64_t(nets[inputs[i]]) << i;
        nets[outputs[k]] = truths[k] >> place & 1;
    }
}

static void set_all(const Code &code, uint8_t *nets) {
    for (const Run &run : code.runs) {
        switch (run.width) {
        case 0: set_run<0>(code, run, nets); break;
        case 1: set_run<1>(code, run, nets); break;
        case 2: set_run<2>(code, run, nets); break;
        case 3: set_run<3>(code, run, nets); break;
        case 4: set_run<4>(code, run, nets); break;
        case 5: set_run<5>(code, run, nets); break;
        case 6: set_run<6>(code, run, nets); break;
        default:
            for (size_t k = run.first; k < run.end; k++) {
                const Table &table = code.tables[k];
                nets[table.output] =
                    value_of(table, [&](size_t i) { return bool(nets[table.inputs[i]]); });
            }
        }
    }
}

static void put(std::string &line, const std::vector<uint8_t> &values) {
    if (values.empty()) line += '-';
    for (uint8_t value : values) line += char('0' + value);
}

int main() {
    std::ios::sync_with_stdio(false);
    std::vector<uint8_t> nets(number());
    std::vector<Table> tables(number());
    std::vector<Register> registers(number());
    std::vector<int> columns(number()), outputs(number());
    for (Table &table : tables) table = read_table();
    for (Register &it : registers) it = {number(), number(), number()};
    for (int &net : columns) net = number();
    for (int &net : outputs) net = number();
    Code code = code_of(std::move(tables), nets.size());
    std::vector<uint8_t> state, out(outputs.size());
    for (const Register &it : registers) state.push_back(it.start);
    std::string vector, line;
    for (long turn = 0; std::cin >> vector; turn++) {
        for (size_t i = 0; i < columns.size(); i++) nets[columns[i]] = vector[i] - '0';
        for (size_t i = 0; i < registers.size(); i++) nets[registers[i].output] = state[i];
        set_all(code, nets.data());
        for (size_t i = 0; i < outputs.size(); i++) out[i] = nets[outputs[i]];
        line += std::to_string(turn) + " ";
        put(line, out);
        line += ' ';
        put(line, state);
        line += '\n';
        for (size_t i = 0; i < registers.size(); i++) state[i] = nets[registers[i].data];
        if (line.size() > 65536) {
            fwrite(line.data(), 1, line.size(), stdout);
            line.clear();
        }
    }
    line += "end ";
    put(line, state);
    line += '\n';
    fwrite(line.data(), 1, line.size(), stdout);
}

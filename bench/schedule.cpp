// The yardstick of `pim compile --target magic`: plain C++ on one thread.
//
//     schedule CELLS < netlist.aig > program
//
// It reads binary AIGER without symbols, lowers it to NORs of up to two operands, orders these by cell usage, and writes a program
// that takes cells again, as `pim` does for one of its two candidates. It trusts the file, which `pim` doesn't.
#include <algorithm>
#include <cstdio>
#include <cstdlib>
#include <string>
#include <utility>
#include <vector>

using Numbers = std::vector<unsigned>;

// What a gate reads: one or two literals, or none.
struct Operands {
    unsigned count = 0, literals[2];
    void add(unsigned literal) { literals[count++] = literal; }
    const unsigned *begin() const { return literals; }
    const unsigned *end() const { return literals + count; }
};

// AND nodes by their variables, from 1 + inputs on. A literal is twice a variable, plus one for the complement.
struct Netlist {
    unsigned inputs = 0, nodes = 0;
    Numbers outputs, left, right;
    unsigned literals() const { return 2 * (1 + inputs + nodes); }
};

static std::string whole_input() {
    std::string bytes;
    char buffer[1 << 16];
    for (size_t n; (n = fread(buffer, 1, sizeof buffer, stdin));) bytes.append(buffer, n);
    return bytes;
}

static unsigned code(const char *&at) {
    unsigned value = 0, shift = 0;
    for (; *at & 128; shift += 7) value |= unsigned(*at++ & 127) << shift;
    return value | unsigned(*at++) << shift;
}

static Netlist read() {
    std::string bytes = whole_input();
    Netlist net;
    unsigned variables, latches, outputs;
    if (sscanf(bytes.c_str(), "aig %u %u %u %u %u", &variables, &net.inputs, &latches, &outputs, &net.nodes) != 5) exit(1);
    const char *at = bytes.c_str() + bytes.find('\n') + 1;
    for (unsigned k = 0; k < outputs; k++) {
        net.outputs.push_back(unsigned(strtoul(at, const_cast<char **>(&at), 10)));
        at++;
    }
    for (unsigned k = 0; k < net.nodes; k++) {
        unsigned literal = 2 * (1 + net.inputs + k) - code(at);
        net.left.push_back(literal);
        net.right.push_back(literal - code(at));
    }
    return net;
}

// The NOR gates of a netlist, each named by the literal that it has the value of. An input's own literal is no gate.
struct Network {
    const Netlist &net;
    std::vector<char> reached, is_root;
    Numbers roots, usage, readers;

    bool is_gate(unsigned literal) const { return literal % 2 || literal < 2 || literal / 2 > net.inputs; }

    Operands operands(unsigned gate) const {
        Operands read;
        if (gate % 2 || gate == 0) {
            if (gate != 1) read.add(gate ^ 1);
            return read;
        }
        unsigned node = gate / 2 - net.inputs - 1, a = net.left[node] ^ 1, b = net.right[node] ^ 1;
        read.add(a);
        if (a != b) read.add(b);
        return read;
    }

    // The gates among the operands, the one of greater usage first, as they are visited.
    Operands children(unsigned gate) const {
        Operands found;
        for (unsigned literal : operands(gate))
            if (is_gate(literal)) found.add(literal);
        if (found.count == 2 && usage[found.literals[0]] < usage[found.literals[1]]) std::swap(found.literals[0], found.literals[1]);
        return found;
    }

    void reach(unsigned gate) {
        if (!reached[gate]) return;
        for (unsigned literal : operands(gate))
            if (is_gate(literal)) reached[literal] = 1;
    }

    void measure(unsigned gate) {
        if (!reached[gate]) return;
        Operands read = children(gate);
        unsigned most = read.count + 1;
        for (unsigned k = 0; k < read.count; k++) {
            most = std::max(most, usage[read.literals[k]] + k);
            readers[read.literals[k]]++;
        }
        usage[gate] = most;
    }

    explicit Network(const Netlist &of)
        : net(of), reached(of.literals()), is_root(of.literals()), usage(of.literals()), readers(of.literals()) {
        for (unsigned literal : net.outputs)
            if (is_gate(literal) && !is_root[literal]) {
                is_root[literal] = reached[literal] = 1;
                roots.push_back(literal);
            }
        for (unsigned variable = net.inputs + net.nodes; variable; variable--) {
            reach(2 * variable + 1);
            if (variable > net.inputs) reach(2 * variable);
        }
        reach(0);
        measure(1);
        measure(0);
        for (unsigned gate = 2; gate < net.literals(); gate++)
            if (is_gate(gate)) measure(gate);
        std::stable_sort(roots.begin(), roots.end(), [&](unsigned a, unsigned b) { return usage[a] > usage[b]; });
    }

    // Each gate after its children, by a visit that goes to the child of greater usage first.
    Numbers order() const {
        Numbers found, waiting;
        std::vector<char> state(net.literals());
        for (unsigned root : roots) {
            waiting.push_back(root);
            while (!waiting.empty()) {
                unsigned gate = waiting.back();
                if (state[gate]) {
                    waiting.pop_back();
                    if (state[gate] == 1) found.push_back(gate);
                    state[gate] = 2;
                    continue;
                }
                state[gate] = 1;
                Operands read = children(gate);
                for (unsigned k = read.count; k--;)
                    if (!state[read.literals[k]]) waiting.push_back(read.literals[k]);
            }
        }
        return found;
    }

    // The most values that are held at once.
    unsigned peak(const Numbers &order) const {
        Numbers left = readers;
        unsigned held = 0, most = 0;
        for (unsigned gate : order) {
            most = std::max(most, ++held);
            for (unsigned child : children(gate))
                if (!--left[child] && !is_root[child]) held--;
        }
        return most;
    }
};

static void append(std::string &text, unsigned number) {
    char digits[10];
    int count = 0;
    do digits[count++] = char('0' + number % 10);
    while (number /= 10);
    while (count) text += digits[--count];
}

// Cells that are set to one, rising, and those whose value is needed no longer.
struct Cells {
    Numbers primed, expired;
    size_t next = 0;
    unsigned spare = ~0u;  // the cell of the constant one, which is as good as set when it is needed no longer

    unsigned take(std::string &text, unsigned &cycles) {
        if (next == primed.size() && spare == ~0u) {
            primed.swap(expired);
            expired.clear();
            next = 0;
            std::sort(primed.begin(), primed.end());
            text += "init";
            for (unsigned cell : primed) append(text += ' ', cell);
            text += '\n';
            cycles++;
        }
        if (spare != ~0u && (next == primed.size() || spare < primed[next])) return std::exchange(spare, ~0u);
        return primed[next++];
    }
};

int main(int argc, char **argv) {
    if (argc != 2) return 2;
    unsigned budget = unsigned(atoi(argv[1])), cycles = 0;
    Netlist net = read();
    Network network(net);
    Numbers order = network.order();
    unsigned needed = net.inputs + network.peak(order);
    if (budget < needed) {
        fprintf(stderr, "too few cells: needed %u\n", needed);
        return 6;
    }
    unsigned work = std::min(budget - net.inputs, unsigned(order.size()));
    Cells cells;
    for (unsigned k = 0; k < work; k++) cells.expired.push_back(net.inputs + k);
    Numbers cell_of(net.literals()), left = network.readers;
    for (unsigned k = 0; k < net.inputs; k++) cell_of[2 * (k + 1)] = k;
    std::string text;
    for (unsigned gate : order) {
        unsigned cell = cell_of[gate] = cells.take(text, cycles);
        Operands read = network.operands(gate);
        if (read.count) {
            append(text += read.count == 1 ? "not " : "nor ", cell);
            for (unsigned literal : read) append(text += ' ', cell_of[literal]);
            text += '\n';
            cycles++;
        }
        for (unsigned child : network.children(gate))
            if (!--left[child] && !network.is_root[child]) {
                if (child == 1) cells.spare = cell_of[1];
                else cells.expired.push_back(cell_of[child]);
            }
    }
    printf("pim 1\ntarget magic\ncells %u\n", net.inputs + work);
    for (unsigned k = 0; k < net.inputs; k++) printf("input %u i%u\n", k, k);
    for (unsigned k = 0; k < net.outputs.size(); k++) printf("output %u o%u\n", cell_of[net.outputs[k]], k);
    printf("cycles %u\n", cycles);
    fwrite(text.data(), 1, text.size(), stdout);
    printf("end\n");
    return 0;
}

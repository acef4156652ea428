/* The reader goes by lines. Gates come in any order, and are sorted so that each stands behind what it reads. */
#include "circuits.h"
#include <algorithm>
#include <unordered_map>
#include <unordered_set>

namespace {

using Wide = unsigned __int128;
constexpr int64_t MOST_NAME = 16777215;
constexpr uint64_t MOST_GREATEST = 268435456;

std::vector<View> words_of(View line) {
    std::vector<View> words;
    for (size_t at = 0; at < line.size();) {
        if (line[at] == ' ' || line[at] == '\t') {
            at++;
            continue;
        }
        size_t start = at;
        while (at < line.size() && line[at] != ' ' && line[at] != '\t') at++;
        words.push_back(line.substr(start, at - start));
    }
    return words;
}
/* digits alone; far above all limits a number stays where it is */
bool digits_of(View word, Wide &value) {
    static const Wide FAR = static_cast<Wide>(1) << 120;
    value = 0;
    if (word.empty()) return false;
    for (char c : word) {
        if (c < '0' || c > '9') return false;
        if (value < FAR) value = 10 * value + static_cast<Wide>(c - '0');
    }
    return true;
}
/* so many numbers and nothing else */
bool numbers_of(const std::vector<View> &words, size_t from, size_t count, Wide *found) {
    if (words.size() != from + count) return false;
    for (size_t at = 0; at < count; at++)
        if (!digits_of(words[from + at], found[at])) return false;
    return true;
}

class Reading {
  public:
    explicit Reading(View text) {
        for (View line : lines_with_ends(text)) {
            const bool is_ended = line.back() == '\n';
            if (is_ended) line.remove_suffix(1), end_++;
            if (is_ended && !line.empty() && line.back() == '\r') line.remove_suffix(1);
            lines_.push_back(line);
        }
    }
    Circuits circuits() {
        read_header();
        for (size_t place = 1; place < 1 + static_cast<size_t>(inputs_ + outputs_ + gates_); place++) {
            if (place >= lines_.size()) throw Refused{end_, 8};
            take(place);
        }
        read_symbols();
        look_for_undefined();
        sort_gates();
        for (size_t at = 0; at < found_.inputs.size(); at++) found_.inputs[at].name = names_[0][at];
        for (size_t at = 0; at < found_.outputs.size(); at++) found_.outputs[at].name = names_[1][at];
        return std::move(found_);
    }

  private:
    std::vector<View> lines_;
    uint64_t end_ = 1;
    Wide greatest_ = 0, inputs_ = 0, outputs_ = 0, gates_ = 0;
    std::unordered_set<uint64_t> defined_;
    std::vector<uint64_t> gate_lines_;
    std::vector<int> names_[2];
    Circuits found_;

    void read_header() {
        Wide row[5];
        const std::vector<View> words = lines_.empty() ? std::vector<View>() : words_of(lines_[0]);
        if (words.empty() || words[0] != "aag" || !numbers_of(words, 1, 5, row) || row[0] < row[1] + row[2] + row[4]) throw Refused{1, 1};
        if (row[2] != 0) throw Refused{1, 3};
        if (row[0] > MOST_GREATEST) throw Refused{1, 9};
        greatest_ = row[0], inputs_ = row[1], gates_ = row[4];
        outputs_ = std::min<Wide>(row[3], lines_.size()); /* there are no more lines than these */
        if (row[3] > lines_.size()) gates_ = 0;
    }
    void take(size_t place) {
        const bool is_input = place <= inputs_, is_output = !is_input && place <= inputs_ + outputs_;
        const size_t count = is_input || is_output ? 1 : 3;
        Wide row[3];
        if (!numbers_of(words_of(lines_[place]), 0, count, row)) throw Refused{place + 1, 2};
        for (size_t at = 0; at < count; at++)
            if (row[at] > 2 * greatest_ + 1) throw Refused{place + 1, 2};
        const uint64_t first = static_cast<uint64_t>(row[0]);
        if (is_output) return found_.outputs.push_back({0, first});
        if (first % 2 != 0 || first < 2) throw Refused{place + 1, 2};
        if (!defined_.insert(first).second) throw Refused{place + 1, 4};
        if (is_input) return found_.inputs.push_back({first, 0});
        found_.gates.push_back({first, static_cast<uint64_t>(row[1]), static_cast<uint64_t>(row[2])});
        gate_lines_.push_back(place + 1);
    }
    void read_symbols() {
        names_[0].assign(found_.inputs.size(), 0), names_[1].assign(found_.outputs.size(), 0);
        for (size_t place = 1 + found_.inputs.size() + found_.outputs.size() + found_.gates.size(); place < lines_.size(); place++) {
            const std::vector<View> words = words_of(lines_[place]);
            if (words.empty()) continue;
            if (words.size() == 1 && words[0] == "c") break;
            if (!take_symbol(words)) throw Refused{place + 1, 7};
        }
        for (const auto &names : names_)
            if (std::find(names.begin(), names.end(), 0) != names.end()) throw Refused{end_, 7};
    }
    bool take_symbol(const std::vector<View> &words) {
        Wide place, name;
        if (words.size() != 2 || (words[0][0] != 'i' && words[0][0] != 'o')) return false;
        std::vector<int> &names = names_[words[0][0] == 'o'];
        if (!digits_of(words[0].substr(1), place) || !digits_of(words[1], name) || place >= names.size()) return false;
        if (name < 1 || name > MOST_NAME || names[static_cast<size_t>(place)] != 0) return false;
        if (std::find(names.begin(), names.end(), static_cast<int>(name)) != names.end()) return false;
        names[static_cast<size_t>(place)] = static_cast<int>(name);
        return true;
    }
    bool is_known(uint64_t literal) const { return literal < 2 || defined_.count(literal & ~uint64_t(1)); }
    void look_for_undefined() const {
        for (size_t at = 0; at < found_.outputs.size(); at++)
            if (!is_known(found_.outputs[at].literal)) throw Refused{2 + found_.inputs.size() + at, 5};
        for (size_t at = 0; at < found_.gates.size(); at++)
            if (!is_known(found_.gates[at].left) || !is_known(found_.gates[at].right)) throw Refused{gate_lines_[at], 5};
    }
    /* gates whose operands are there come next; where some stay behind there is a cycle */
    void sort_gates() {
        std::unordered_set<uint64_t> done{0};
        for (const auto &input : found_.inputs) done.insert(input.literal);
        std::vector<Gate> sorted;
        std::vector<size_t> places(found_.gates.size());
        std::vector<bool> is_placed(found_.gates.size(), false);
        for (bool is_moving = true; is_moving;) {
            is_moving = false;
            for (size_t at = 0; at < found_.gates.size(); at++) {
                const Gate &gate = found_.gates[at];
                if (is_placed[at] || !done.count(gate.left & ~uint64_t(1)) || !done.count(gate.right & ~uint64_t(1))) continue;
                done.insert(gate.literal);
                places[at] = sorted.size();
                sorted.push_back(gate);
                is_placed[at] = is_moving = true;
            }
        }
        if (sorted.size() < found_.gates.size()) refuse_cycle();
        found_.gates = std::move(sorted);
        found_.written = std::move(places);
    }
    [[noreturn]] void refuse_cycle() const {
        std::unordered_map<uint64_t, const Gate *> gates;
        for (const Gate &gate : found_.gates) gates[gate.literal] = &gate;
        for (size_t at = 0; at < found_.gates.size(); at++) {
            std::vector<uint64_t> waiting{found_.gates[at].left & ~uint64_t(1), found_.gates[at].right & ~uint64_t(1)};
            std::unordered_set<uint64_t> seen;
            while (!waiting.empty()) {
                const uint64_t here = waiting.back();
                waiting.pop_back();
                if (!seen.insert(here).second || !gates.count(here)) continue;
                waiting.push_back(gates[here]->left & ~uint64_t(1));
                waiting.push_back(gates[here]->right & ~uint64_t(1));
            }
            if (seen.count(found_.gates[at].literal)) throw Refused{gate_lines_[at], 6};
        }
        throw Refused{0, 6};
    }
};

/* the inputs on which each literal rests, by places, as bits */
using Reads = std::unordered_map<uint64_t, std::vector<bool>>;
Reads reads_of(const Circuits &circuits) {
    Reads reads;
    const std::vector<bool> nothing(circuits.inputs.size(), false);
    reads[0] = nothing;
    for (size_t at = 0; at < circuits.inputs.size(); at++) {
        auto &row = reads[circuits.inputs[at].literal] = nothing;
        row[at] = true;
    }
    for (const Gate &gate : circuits.gates) {
        std::vector<bool> row = reads.at(gate.left & ~uint64_t(1));
        const std::vector<bool> &other = reads.at(gate.right & ~uint64_t(1));
        for (size_t at = 0; at < row.size(); at++) row[at] = row[at] || other[at];
        reads[gate.literal] = row;
    }
    return reads;
}

} // namespace

Circuits read_circuits(View text) { return Reading(text).circuits(); }

Bytes canonical(const Circuits &circuits) {
    const size_t inputs = circuits.inputs.size(), outputs = circuits.outputs.size(), gates = circuits.gates.size();
    const auto line = [](std::initializer_list<uint64_t> numbers) {
        Bytes text;
        for (uint64_t n : numbers) text += (text.empty() ? "" : " ") + std::to_string(n);
        return text + "\n";
    };
    Bytes text = "aag " + line({inputs + gates, inputs, 0, outputs, gates});
    for (const auto &input : circuits.inputs) text += line({input.literal});
    for (const auto &output : circuits.outputs) text += line({output.literal});
    for (size_t place : circuits.written) {
        const Gate &gate = circuits.gates[place];
        text += line({gate.literal, std::max(gate.left, gate.right), std::min(gate.left, gate.right)});
    }
    for (size_t at = 0; at < inputs; at++) text += "i" + std::to_string(at) + " " + std::to_string(circuits.inputs[at].name) + "\n";
    for (size_t at = 0; at < outputs; at++) text += "o" + std::to_string(at) + " " + std::to_string(circuits.outputs[at].name) + "\n";
    return text;
}

Bytes misfit(const Formula &formula, const Circuits &circuits, char owner) {
    std::unordered_map<int, size_t> places;
    for (size_t at = 0; at < formula.prefix.size(); at++) places[formula.prefix[at].variable] = at;
    const auto is_of = [&](int v, bool is_owner) {
        auto place = places.find(v);
        return place != places.end() && (formula.prefix[place->second].quantifier == owner) == is_owner;
    };
    std::unordered_map<int, uint64_t> outputs;
    for (const auto &output : circuits.outputs) outputs[output.name] = output.literal & ~uint64_t(1);
    for (const Bound &bound : formula.prefix)
        if (bound.quantifier == owner && !outputs.count(bound.variable)) return "missing " + std::to_string(bound.variable);
    for (const auto &output : circuits.outputs)
        if (!is_of(output.name, true)) return "strange output " + std::to_string(output.name);
    const Reads reads = reads_of(circuits);
    for (size_t at = 0; at < circuits.inputs.size(); at++) {
        if (is_of(circuits.inputs[at].name, false)) continue;
        for (const auto &[name, literal] : outputs)
            if (reads.at(literal)[at]) return "strange input " + std::to_string(circuits.inputs[at].name);
    }
    for (size_t place = 0; place < formula.prefix.size(); place++) {
        const Bound &bound = formula.prefix[place];
        if (bound.quantifier != owner) continue;
        const std::vector<bool> &row = reads.at(outputs[bound.variable]);
        for (size_t at = 0; at < row.size(); at++)
            if (row[at] && places.at(circuits.inputs[at].name) > place)
                return std::to_string(bound.variable) + " reads " + std::to_string(circuits.inputs[at].name);
    }
    return "";
}

Values values_of(const Circuits &circuits, const Values &inputs, size_t variables) {
    std::unordered_map<uint64_t, Table> known;
    known[0] = Table(variables, false);
    const auto value = [&](uint64_t literal) {
        const Table &table = known.at(literal & ~uint64_t(1));
        return literal & 1 ? ~table : table;
    };
    for (const auto &input : circuits.inputs) {
        auto given = inputs.find(input.name);
        known[input.literal] = given != inputs.end() ? given->second : Table(variables, false);
    }
    for (const Gate &gate : circuits.gates) known[gate.literal] = value(gate.left) & value(gate.right);
    Values values;
    for (const auto &output : circuits.outputs) values[output.name] = value(output.literal);
    return values;
}

Values values_under(const Formula &formula, const Circuits &circuits, char owner, size_t &variables) {
    std::vector<int> others;
    for (const Bound &bound : formula.prefix)
        if (bound.quantifier != owner) others.push_back(bound.variable);
    variables = others.size();
    Values values;
    for (size_t at = 0; at < variables; at++) values[others[at]] = Table::of_variable(variables, at);
    for (auto &[name, table] : values_of(circuits, values, variables)) values[name] = table;
    return values;
}

bool are_functions(const Formula &formula, const Circuits &circuits, char owner) {
    size_t variables;
    const Values values = values_under(formula, circuits, owner, variables);
    return table_of(formula.matrix, values, variables).is_all(owner == 'e');
}

bool are_all_gates_read(const Circuits &circuits) {
    std::unordered_set<uint64_t> read;
    for (const auto &output : circuits.outputs) read.insert(output.literal & ~uint64_t(1));
    for (auto gate = circuits.gates.rbegin(); gate != circuits.gates.rend(); ++gate) {
        if (!read.count(gate->literal)) return false;
        read.insert(gate->left & ~uint64_t(1));
        read.insert(gate->right & ~uint64_t(1));
    }
    return true;
}

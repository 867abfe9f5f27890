// Finds a word that satisfies a formula, by the automaton's arrays: ./word 'p U (q && [] !p)' prints {p}; cycle {q}; {} or another one.
#include <algorithm>
#include <deque>
#include <iostream>
#include <ltl2ba.h>
#include <stdexcept>
#include <string>
#include <vector>

// The Büchi automaton of a formula.
class Automaton {
public:
    explicit Automaton(const std::string &formula) : text(formula), states(8), edges(32), names(8)
    {
        ltl2ba_options options{};
        ltl2ba_counts counts{};
        const uint8_t *bytes = reinterpret_cast<const uint8_t *>(text.c_str());
        int status;
        while ((status = ltl2ba_automaton(bytes, text.size(), &options, states.data(), states.size(), edges.data(), edges.size(), names.data(), names.size(), &counts)) == LTL2BA_TOO_SHORT)
            resize(counts, 1);
        if (status != LTL2BA_DONE) {
            uint8_t line[128];
            size_t length;
            ltl2ba_message(LTL2BA_TRANSLATOR, &counts.refusal, line, sizeof line, &length);
            throw std::runtime_error(std::string(line, line + length));
        }
        resize(counts, 0);
    }

    size_t size() const { return states.size(); }
    bool accepting(size_t state) const { return states[state].accepting; }
    size_t begin(size_t state) const { return states[state].first_edge; }
    size_t end(size_t state) const { return state + 1 < size() ? states[state + 1].first_edge : edges.size(); }
    size_t target(size_t edge) const { return edges[edge].target; }

    // The least letter with which an edge may be taken.
    std::string letter(size_t edge) const
    {
        std::string found;
        for (size_t i = 0; i < names.size(); i++)
            if (edges[edge].asked_true[i / 64] >> i % 64 & 1)
                found += (found.empty() ? "" : ",") + text.substr(names[i].offset, names[i].length);
        return "{" + found + "}";
    }

private:
    // No array is empty before the calls: each needs a pointer.
    void resize(const ltl2ba_counts &counts, size_t least)
    {
        states.resize(std::max(counts.states, least)), edges.resize(std::max(counts.edges, least)), names.resize(std::max(counts.names, least));
    }

    std::string text;
    std::vector<ltl2ba_state> states;
    std::vector<ltl2ba_edge> edges;
    std::vector<ltl2ba_name> names;
};

// For each state that edges from this one lead to, the last edge of a shortest way there and the state before; -1 elsewhere. The way has an edge.
struct Ways {
    std::vector<long> edge, before;

    Ways(const Automaton &automaton, size_t from) : edge(automaton.size(), -1), before(automaton.size(), -1)
    {
        std::deque<size_t> open{from};
        for (; !open.empty(); open.pop_front())
            for (size_t k = automaton.begin(open.front()); k < automaton.end(open.front()); k++)
                if (edge[automaton.target(k)] < 0) {
                    edge[automaton.target(k)] = k, before[automaton.target(k)] = open.front();
                    open.push_back(automaton.target(k));
                }
    }

    // The letters along the way to a state, each with what stands between two behind it.
    std::string letters(const Automaton &automaton, size_t from, size_t to) const
    {
        std::string found;
        do {
            found = automaton.letter(edge[to]) + "; " + found;
            to = before[to];
        } while (to != from);
        return found;
    }
};

int main(int count, char **words)
try {
    const Automaton automaton(count == 2 ? words[1] : "p U (q && [] !p)");
    const Ways ways(automaton, 0);
    for (size_t state = 0; state < automaton.size(); state++) {
        if (!automaton.accepting(state))
            continue;
        const Ways turn(automaton, state);
        if (turn.edge[state] < 0)
            continue;
        const std::string stem = state ? ways.letters(automaton, 0, state) : "", cycle = turn.letters(automaton, state, state);
        std::cout << stem << "cycle " << cycle.substr(0, cycle.size() - 2) << "\n";
        return 0;
    }
    std::cout << "no word satisfies it\n";
    return 1;
} catch (const std::exception &failure) {
    std::cerr << failure.what();
    return 3;
}

// Says whether each word that satisfies one formula satisfies another, and else prints one that doesn't: ./check '<>p' '[]<>p'
#include <iostream>
#include <ltl2ba.h>
#include <stdexcept>
#include <string>
#include <vector>

// The calls of the library, over strings.
class Logic {
public:
    static std::string automaton(const std::string &formula)
    {
        ltl2ba_options options{};
        ltl2ba_refusal refusal{};
        options.layout = LTL2BA_HOA;
        std::vector<uint8_t> buffer(1000);
        size_t length;
        int status;
        while ((status = ltl2ba_text(bytes(formula), formula.size(), &options, buffer.data(), buffer.size(), &length, &refusal)) == LTL2BA_TOO_SHORT)
            buffer.resize(length);
        refuse(status, LTL2BA_TRANSLATOR, refusal);
        return std::string(buffer.begin(), buffer.begin() + length);
    }

    // A word that the automaton accepts and that violates the formula; none where each satisfies it.
    static bool violation(const std::string &automaton, const std::string &formula, std::string &word)
    {
        ltl2ba_refusal refusal{};
        ltlcheck_found found{};
        std::vector<uint8_t> buffer(1000);
        int status;
        while ((status = ltlcheck_verdict(bytes(formula), formula.size(), bytes(automaton), automaton.size(), buffer.data(), buffer.size(), &found, &refusal)) == LTL2BA_TOO_SHORT)
            buffer.resize(found.length);
        refuse(status, LTL2BA_CHECKER, refusal);
        word.assign(buffer.begin(), buffer.begin() + found.length);
        return !found.contained;
    }

    static bool holds(const std::string &formula, const std::string &word)
    {
        ltl2ba_refusal refusal{};
        bool truth;
        refuse(ltleval_holds(bytes(formula), formula.size(), bytes(word), word.size(), &truth, &refusal), LTL2BA_EVALUATOR, refusal);
        return truth;
    }

private:
    static const uint8_t *bytes(const std::string &text) { return reinterpret_cast<const uint8_t *>(text.c_str()); }

    static void refuse(int status, uint32_t program, const ltl2ba_refusal &refusal)
    {
        if (status <= LTL2BA_VIOLATED)
            return;
        uint8_t line[128];
        size_t length;
        ltl2ba_message(program, &refusal, line, sizeof line, &length);
        throw std::runtime_error(std::string(line, line + length));
    }
};

int main(int count, char **words)
try {
    std::string model = count == 3 ? words[1] : "<>p", property = count == 3 ? words[2] : "[]<>p", word;
    if (!Logic::violation(Logic::automaton(model), property, word)) {
        std::cout << "contained\n";
        return 0;
    }
    std::cout << word << (Logic::holds(model, word) && !Logic::holds(property, word) ? "\n" : " is no such word\n");
    return 1;
} catch (const std::exception &failure) {
    std::cerr << failure.what();
    return 3;
}

/* A command over standard input by the wrapper for C++: its words are those of the program. */
#include "sdm_calls.hpp"

#include <cstdio>
#include <string>
#include <string_view>

static void put(std::string_view text, std::FILE *to) { std::fwrite(text.data(), 1, text.size(), to); }

int main(int count, char **arguments) {
    std::string words, input;
    for (int i = 1; i < count; i++) {
        if (i > 1)
            words += '\0';
        words += arguments[i];
    }
    char block[65536];
    while (std::size_t got = std::fread(block, 1, sizeof block, stdin))
        input.append(block, got);
    sdm_cpp::Answer first = sdm_cpp::command(words, input), answer = std::move(first);
    put(answer.text.view(), stdout);
    put(answer.line.view(), stderr);
    return static_cast<int>(answer.code);
}

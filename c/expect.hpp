// What the tests in C++ share: whether something was answered otherwise than it should, and comparisons that say so.
#ifndef LEGUMEYET_EXPECT_HPP
#define LEGUMEYET_EXPECT_HPP

#include <cstdio>
#include <legumeyet.hpp>
#include <string>
#include <string_view>

static int wrong = 0;

static inline void expect(std::string_view got, std::string_view wanted) {
    if (got == wanted) return;
    std::fprintf(stderr, "%.*s, and not %.*s\n", static_cast<int>(got.size()), got.data(), static_cast<int>(wanted.size()), wanted.data());
    wrong = 1;
}

static inline void expect_code(legumeyet::Code got, legumeyet::Code wanted) {
    expect(std::to_string(static_cast<int>(got)), std::to_string(static_cast<int>(wanted)));
}

#endif

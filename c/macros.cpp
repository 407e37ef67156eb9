// Includes legumeyet.hpp beside macros that other headers define, as those of X11. The status is 1 where a call does otherwise than it should.
#define None 0L
#define Always 2
#include <legumeyet.hpp>
#include <iostream>

static_assert(None == 0L && Always == 2);

int main() {
    legumeyet::CurrencyFormatter dollars("en", "USD");
    legumeyet::Options options = legumeyet::Options().with_rounding(legumeyet::Rounding{LEGUMEYET_ROUND_NONE});
    options = options.with_sign(legumeyet::Sign{LEGUMEYET_SIGN_ALWAYS});
    const std::string text = dollars.format(5, options);
    if (text != "+$5") std::cout << text << ", and not +$5\n";
    return text != "+$5";
}

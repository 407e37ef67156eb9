// Writes a number as German, Hindi and Arabic readers write it.
#include <legumeyet.hpp>

#include <iostream>

int main() {
    for (const char *tag : {"de", "hi", "ar-EG"})
        std::cout << legumeyet::DecimalFormatter(tag).format("1234567.891") << '\n';
}

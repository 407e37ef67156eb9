// Formatters for which no book is given, in C++: the first ones of a process are opened of their tags alone, and are as those of the world's book. It
// prints what is otherwise than it should be, and the status is 1 where something is.
#include "expect.hpp"
#include <legumeyet.hpp>

#include <sys/wait.h>
#include <thread>

using namespace legumeyet;

// One by one, from those of tags alone on to those of the book.
static void one_by_one() {
    Book world = Book::world();
    for (const auto tag : world_locales()) {
        static int at = 0;
        if (at++ % 25 != 0) continue;
        CurrencyFormatter own(tag, "EUR"), twin(world, tag, "EUR");
        const auto text = own.format(-1234.5);
        expect(text, twin.format(-1234.5));
        expect(own.read(text), twin.read(text));
        expect(own.read_lenient("1234"), twin.read_lenient("1234"));
    }
}

static void each_format() {
    expect(DecimalFormatter("de", Grouping::Never).format(1234.5), "1234,5");
    expect(CompactDecimalFormatter("de", Width::Long).format(1234567), "1,2 Millionen");
    expect(PercentFormatter("tr").format(12.5), "%12,5");
    expect(NumberFormatter::skeleton("en", "percent .00").format(5), "5.00%");
    expect(NumberFormatter("en", {Notation::Scientific}).format(1650), "1.65E3");
    expect(std::string(name(PluralRules("pl").select(5))), "many");
    const SharedNumberFormatter shared{DecimalFormatter("fr")};
    expect(shared.format(0.5), "0,5");
}

static void refused() {
    std::size_t place = 0;
    expect(message(DecimalFormatter::try_open("e").error()), message(Code::Tag));
    expect(message(CurrencyFormatter::try_open("de", "eur").error()), message(Code::Code));
    expect(message(NumberFormatter::try_skeleton("de", "percent foo", &place).error()), message(Code::SkeletonUnknown));
    expect(std::to_string(place), "8");
    expect(message(NumberFormatter::try_open("de", {Notation::Compact, {}, Unit::Percent}).error()), message(Code::Table));
    try {
        DecimalFormatter("de_DE");
        expect("opened", "refused");
    } catch (const Error &error) {
        expect(std::string(error.what()).substr(0, message(Code::Tag).size()), message(Code::Tag));
    }
}

// Threads open some at once, and a child of a fork others.
static void at_once() {
    std::vector<std::thread> all;
    for (int at = 0; at < 4; at++) all.emplace_back([] {
        for (int turn = 0; turn < 20; turn++)
            if (DecimalFormatter("de-AT").format(1234.5) != "1\u00a0234,5") std::abort();
    });
    for (auto &it : all) it.join();
    const pid_t child = fork();
    if (child == 0) _exit(DecimalFormatter("de").format(0.5) == "0,5" ? 0 : 1);
    int status = 1;
    waitpid(child, &status, 0);
    expect(std::to_string(status), "0");
}

int main() {
    each_format();
    refused();
    one_by_one();
    at_once();
    return wrong;
}

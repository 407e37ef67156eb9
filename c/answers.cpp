// Answers the request lines of standard input, under the book of a file, by Answers of legumeyet.hpp, and prints the answers. Before that it
// makes these calls well and badly. The status is 1 where a call does otherwise than it should, and a line says which.
//
// usage: answers BOOK < LINES > ANSWERS
#include "expect.hpp"

#include <iostream>
#include <iterator>
#include <sys/wait.h>
#include <thread>

using legumeyet::Answers, legumeyet::Book, legumeyet::Code, legumeyet::Error;

static_assert(std::is_nothrow_move_constructible_v<Answers> && std::is_nothrow_move_assignable_v<Answers>);
static_assert(!std::is_copy_constructible_v<Answers> && !std::is_copy_assignable_v<Answers>);
static_assert(std::is_default_constructible_v<Answers> && !std::is_convertible_v<int, Answers> && !std::is_convertible_v<Book &, Answers>);

// The call throws this error.
template <class Call> static void expect_error(Code wanted, Call call) {
    try {
        call();
        expect("no error", legumeyet::message(wanted));
    } catch (const Error &error) {
        expect(error.what(), legumeyet::message(wanted));
    }
}

static const std::string GERMAN = "de\tplain\tauto\tkeep\t-\t1234.5", HIS = "ok\t1.234,5\n", SHAPE = "err\tshape\n";

static void opened_and_closed() {
    Book book = Book::world();
    expect_error(Code::Unkept, [&] { Answers it(book); });
    expect_code(Answers::try_open(book, 0).error(), Code::Unkept);
    book.keep();
    expect_error(Code::Option, [&] { Answers it(book, 0); });
    expect_error(Code::Option, [] { Answers it(0); });
    expect_code(Answers::try_open(book, SIZE_MAX).error(), Code::Memory);
    Answers answers(book, 1), other(book, 3);
    Book closed = std::move(book);
    expect_error(Code::Closed, [&] { Answers it(book); });
    closed = Book("[[],[],[],[],[]]");
    expect(answers.answer(GERMAN), HIS);
    Answers moved = std::move(answers);
    expect(moved.answer(GERMAN + "\n"), HIS);
    for (const char *lines : {"", "x", "x\n"}) expect_code(answers.try_answer(lines).error(), Code::Closed);
    expect_error(Code::Closed, [&] { answers.answer(GERMAN); });
    Answers &same = moved;
    moved = std::move(same);
    expect(moved.answer(GERMAN), HIS);
    other = std::move(moved);
    expect(other.answer(GERMAN), HIS);
    expect_code(moved.try_answer("x\n").error(), Code::Closed);
}

// A text of many equal lines.
static std::string repeated(std::string_view line, int count) {
    std::string found;
    while (count-- > 0) found += line;
    return found;
}

static void lines() {
    Answers answers;
    expect(answers.answer("") + answers.answer(std::string_view()), "");
    expect(answers.answer("\n") + answers.answer("\n\n"), SHAPE + SHAPE + SHAPE);
    expect(answers.answer(GERMAN + "\nx\n" + GERMAN), HIS + SHAPE + HIS);
    expect(answers.answer(std::string("x\0y\nz\0\n", 7)) + answers.answer(std::string(1, '\0')), SHAPE + SHAPE + SHAPE);
    expect(answers.answer(GERMAN + std::string(1, '\0') + "\n"), "err\tnumber\n");
    expect(answers.answer("\xff\n" + GERMAN + "\r\n"), SHAPE + "err\tnumber\n");
    expect(answers.answer(std::string(100000, 'x') + "\n" + GERMAN), SHAPE + HIS);
    expect(answers.answer("e" + GERMAN.substr(2) + "\nxx" + GERMAN.substr(2)), "err\ttag\nerr\ttable\n");
    const std::string plain = "de\tplain\tauto\tkeep\t-\t", long_one = plain + std::string(30000, '1');
    const std::string long_answer = Book::world().answer(long_one) + '\n';
    expect(answers.answer(plain + "1e30000\n" + GERMAN), "ok\t1" + repeated(".000", 10000) + "\n" + HIS);
    expect(answers.answer(GERMAN + "\n" + long_one), HIS + long_answer);
    expect(answers.answer(repeated(long_one + "\n", 20)), repeated(long_answer, 20));
    expect(answers.answer(repeated(GERMAN + "\n", 20000)), repeated(HIS, 20000));
}

// Answers that go to another thread, two that are used at once, and those of a child.
static void in_threads() {
    Answers answers(2), other(2);
    std::string found, found_too;
    std::thread thread([it = std::move(answers), &found]() mutable { found = it.answer(repeated(GERMAN + "\n", 2000)); });
    found_too = other.answer(repeated(GERMAN + "\n", 2000));
    thread.join();
    expect(found, repeated(HIS, 2000));
    expect(found, found_too);
    const pid_t child = fork();
    if (child == 0) _exit(other.answer(GERMAN) == HIS && Answers().answer(GERMAN) == HIS ? 0 : 1);
    int status = -1;
    waitpid(child, &status, 0);
    expect(std::to_string(status), "0");
}

int main(int count, char **words) {
    if (count != 2) return 1;
    opened_and_closed();
    lines();
    in_threads();
    Book book = Book::from_file(words[1]);
    book.keep();
    Answers answers(book, 16);
    const std::string all{std::istreambuf_iterator<char>(std::cin), {}};
    const std::size_t half = all.find('\n', all.size() / 2) + 1;
    std::cout << answers.answer(all.substr(0, half)) << answers.answer(all.substr(half));
    return wrong;
}

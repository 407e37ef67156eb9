/* Writes a number as German, Hindi and Arabic readers write it. */
#include <legumeyet.h>
#include <stdio.h>

static int32_t print_number(legumeyet_book *book, const char *tag, const char *number) {
    legumeyet_formatter formatter = {0};
    uint8_t text[64];
    size_t length = 0;
    int32_t error = legumeyet_formatter_open(book, LEGUMEYET_TEXT(tag), NULL, 0, NULL, 0, &formatter);
    if (error == 0) error = legumeyet_formatter_format(&formatter, LEGUMEYET_TEXT(number), NULL, 0, text, sizeof text, &length);
    if (error == 0) printf("%.*s\n", (int)length, (const char *)text);
    legumeyet_formatter_close(&formatter);
    return error;
}

int main(void) {
    legumeyet_book world = {0};
    int32_t error = legumeyet_book_open_world(&world);
    if (error == 0) error = print_number(&world, "de", "1234567.891");
    if (error == 0) error = print_number(&world, "hi", "1234567.891");
    if (error == 0) error = print_number(&world, "ar-EG", "1234567.891");
    legumeyet_book_close(&world);
    return error;
}

/* The pieces of the lines of flash_serve: words, numbers, and the hexadecimal digits of pages, 16 bytes at once. A page
 * has a multiple of 16 bytes. What writes a piece answers its end. */

#include <stdint.h>
#include <string.h>

static inline char *write_word(char *text, const char *word) {
    size_t length = strlen(word);
    memcpy(text, word, length);
    return text + length;
}

static inline char *write_number(char *text, uint32_t number) {
    char digits[10];
    int count = 0;
    do digits[count++] = (char)('0' + number % 10);
    while (number /= 10);
    while (count) *text++ = digits[--count];
    return text;
}

typedef uint8_t lanes __attribute__((vector_size(16)));

/* Lanes of two, by their numbers. Clang has the first, and GCC has it from 12 on. */
#if defined __clang__ || __GNUC__ >= 12
#define CHOOSE(one, other, ...) __builtin_shufflevector(one, other, __VA_ARGS__)
#else
#define CHOOSE(one, other, ...) __builtin_shuffle(one, other, (lanes){__VA_ARGS__})
#endif

static inline lanes digits_of(lanes values) {
    return values + '0' + ((lanes)(values > 9) & ('a' - 10 - '0'));
}

/* Writes two digits for each byte. */
static inline char *write_digits(char *text, const unsigned char *from, uint32_t bytes) {
    for (uint32_t i = 0; i < bytes; i += 16, text += 32) {
        lanes all;
        memcpy(&all, from + i, 16);
        lanes high = digits_of(all >> 4), low = digits_of(all & 15);
        lanes first = CHOOSE(high, low, 0, 16, 1, 17, 2, 18, 3, 19, 4, 20, 5, 21, 6, 22, 7, 23);
        lanes second = CHOOSE(high, low, 8, 24, 9, 25, 10, 26, 11, 27, 12, 28, 13, 29, 14, 30, 15, 31);
        memcpy(text, &first, 16);
        memcpy(text + 16, &second, 16);
    }
    return text;
}

/* The values of digits. In `others` a bit is set where a lane has none. */
static inline lanes values_of(lanes digits, lanes *others) {
    lanes number = digits - '0', letter = digits - 'a', is_number = (lanes)(number < 10);
    *others |= ~is_number & (lanes)(letter > 5);
    return (is_number & number) | (~is_number & (letter + 10));
}

/* Whether there are digits for so many bytes, and nothing behind them. */
static inline int read_digits(const char *text, unsigned char *out, uint32_t bytes) {
    lanes others = {0}, none = {0};
    if (strlen(text) != 2 * (size_t)bytes) return 0;
    for (uint32_t i = 0; i < bytes; i += 16, text += 32) {
        lanes first, second;
        memcpy(&first, text, 16);
        memcpy(&second, text + 16, 16);
        lanes high = CHOOSE(first, second, 0, 2, 4, 6, 8, 10, 12, 14, 16, 18, 20, 22, 24, 26, 28, 30);
        lanes low = CHOOSE(first, second, 1, 3, 5, 7, 9, 11, 13, 15, 17, 19, 21, 23, 25, 27, 29, 31);
        lanes all = values_of(high, &others) << 4 | values_of(low, &others);
        memcpy(out + i, &all, 16);
    }
    return memcmp(&others, &none, 16) == 0;
}

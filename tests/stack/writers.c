/* Writers of unit text in C: those that keep an array of their own, or use the stack in its place, and two that do not. */
#include <alloca.h>
#include <stdio.h>
#include <string.h>

#include "yebkuzan.h"

static const YebkuzanWritten refused = { YEBKUZAN_REFUSAL_BUFFER_LENGTH, 0 };

__attribute__((always_inline)) static inline char digit(uint32_t value) { return (char)(value < 10 ? '0' + value : 'a' + (value - 10)); }

__attribute__((always_inline)) static inline size_t digits(uint32_t unit)
{
    size_t count = 1;
    while (unit >= 16) {
        unit /= 16;
        count++;
    }
    return count;
}

/* Digits into an array from the last to the first, and from there into the buffer. */
__attribute__((always_inline)) static inline YebkuzanWritten through(uint8_t *text, uint32_t unit, uint8_t *out, size_t out_length)
{
    size_t count = 0;
    do {
        text[count++] = (uint8_t)digit(unit % 16);
        unit /= 16;
    } while (unit != 0);
    for (size_t k = 0; k < count && count <= out_length; k++)
        out[k] = text[count - 1 - k];
    return count <= out_length ? (YebkuzanWritten){ 0, (uint32_t)count } : refused;
}

/* Each digit straight into the buffer. */
YebkuzanWritten right_straight(uint32_t unit, uint8_t *out, size_t out_length)
{
    size_t count = digits(unit);
    if (out_length < count)
        return refused;
    for (size_t k = count; k > 0; k--) {
        out[k - 1] = (uint8_t)digit(unit % 16);
        unit /= 16;
    }
    return (YebkuzanWritten){ 0, (uint32_t)count };
}

/* The same in a function of its own, which is jumped to. */
__attribute__((noinline)) static YebkuzanWritten put(uint32_t unit, uint8_t *out, size_t count)
{
    for (size_t k = count; k > 0; k--) {
        out[k - 1] = (uint8_t)digit(unit % 16);
        unit /= 16;
    }
    return (YebkuzanWritten){ 0, (uint32_t)count };
}

YebkuzanWritten right_in_another_function(uint32_t unit, uint8_t *out, size_t out_length)
{
    size_t count = digits(unit);
    return count <= out_length ? put(unit, out, count) : refused;
}

/* An array of its own. */
YebkuzanWritten wrong_eight_bytes(uint32_t unit, uint8_t *out, size_t out_length)
{
    uint8_t text[8];
    return through(text, unit, out, out_length);
}

/* The array in a function that it calls. */
__attribute__((noinline)) static YebkuzanWritten called(uint32_t unit, uint8_t *out, size_t out_length)
{
    uint8_t text[16];
    return through(text, unit, out, out_length);
}

YebkuzanWritten wrong_in_a_called_function(uint32_t unit, uint8_t *out, size_t out_length)
{
    return called(unit, out, out_length);
}

/* The C library's writer, with its own stack. */
YebkuzanWritten wrong_by_the_library(uint32_t unit, uint8_t *out, size_t out_length)
{
    char text[9];
    size_t count = (size_t)snprintf(text, sizeof text, "%x", unit);
    if (out_length < count)
        return refused;
    memcpy(out, text, count);
    return (YebkuzanWritten){ 0, (uint32_t)count };
}

/* One call for each digit: the stack is the array. */
__attribute__((noinline)) static size_t each(uint32_t unit, uint8_t *out)
{
    size_t k = unit >= 16 ? each(unit / 16, out) : 0;
    out[k] = (uint8_t)digit(unit % 16);
    return k + 1;
}

YebkuzanWritten wrong_recursion(uint32_t unit, uint8_t *out, size_t out_length)
{
    size_t count = digits(unit);
    if (out_length < count)
        return refused;
    each(unit, out);
    return (YebkuzanWritten){ 0, (uint32_t)count };
}

/* The array in static memory. */
YebkuzanWritten wrong_static_array(uint32_t unit, uint8_t *out, size_t out_length)
{
    static uint8_t text[8];
    return through(text, unit, out, out_length);
}

/* A constant table of the digits. */
YebkuzanWritten wrong_constant_table(uint32_t unit, uint8_t *out, size_t out_length)
{
    size_t count = digits(unit);
    if (out_length < count)
        return refused;
    for (size_t k = count; k > 0; k--) {
        out[k - 1] = (uint8_t)"0123456789abcdef"[unit % 16];
        unit /= 16;
    }
    return (YebkuzanWritten){ 0, (uint32_t)count };
}

/* An array as long as the text. */
YebkuzanWritten wrong_as_long_as_the_text(uint32_t unit, uint8_t *out, size_t out_length)
{
    size_t count = digits(unit);
    if (out_length < count)
        return refused;
    volatile uint8_t *text = alloca(count);
    for (size_t k = count; k > 0; k--) {
        text[k - 1] = (uint8_t)digit(unit % 16);
        unit /= 16;
    }
    for (size_t k = 0; k < count; k++)
        out[k] = text[k];
    return (YebkuzanWritten){ 0, (uint32_t)count };
}

/* A table of the digits that is laid out anew. */
YebkuzanWritten wrong_table_of_digits(uint32_t unit, uint8_t *out, size_t out_length)
{
    volatile uint8_t table[16];
    size_t count = digits(unit);
    if (out_length < count)
        return refused;
    for (uint32_t k = 0; k < 16; k++)
        table[k] = (uint8_t)digit(k);
    for (size_t k = count; k > 0; k--) {
        out[k - 1] = table[unit % 16];
        unit /= 16;
    }
    return (YebkuzanWritten){ 0, (uint32_t)count };
}

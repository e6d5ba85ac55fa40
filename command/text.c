#include "text.h"

#include <stdbool.h>
#include <string.h>

const char *text_number(uint64_t value, char text[TEXT_NUMBER])
{
    char digits[TEXT_NUMBER];
    int length = snprintf(digits, sizeof digits, "%llu", (unsigned long long)value);
    char *at = text;
    for (int i = 0; i < length; i++) {
        if (i > 0 && (length - i) % 3 == 0)
            *at++ = ',';
        *at++ = digits[i];
    }
    *at = '\0';
    return text;
}

static void put_escape(FILE *to, uint8_t byte)
{
    fprintf(to, "\\x%02X", byte);
}

void text_name(FILE *to, const uint8_t *bytes, size_t length)
{
    for (size_t i = 0; i < length; i++) {
        if (bytes[i] <= ' ' || bytes[i] > '~' || bytes[i] == '"' || bytes[i] == '\\' || bytes[i] == '=')
            put_escape(to, bytes[i]);
        else
            putc(bytes[i], to);
    }
}

/* The value of the character of so many bytes at the front of bytes, where its tails follow; else 0. */
static uint32_t joined(const uint8_t *bytes, size_t size)
{
    uint32_t value = bytes[0] & (0x7Fu >> size);
    for (size_t i = 1; i < size; i++) {
        if ((bytes[i] & 0xC0) != 0x80)
            return 0;
        value = value << 6 | (bytes[i] & 0x3Fu);
    }
    return value;
}

/* Bytes of the character at the front of bytes, where it is well formed and no control character; else 0. */
static size_t character(const uint8_t *bytes, size_t length)
{
    static const uint32_t least[] = {0, 0, 0xA0, 0x800, 0x10000};
    if (bytes[0] < 0x80)
        return bytes[0] >= ' ' && bytes[0] <= '~' && bytes[0] != '\\';
    size_t size = bytes[0] < 0xC2 ? 0 : bytes[0] < 0xE0 ? 2 : bytes[0] < 0xF0 ? 3 : bytes[0] < 0xF5 ? 4 : 0;
    if (size == 0 || size > length)
        return 0;
    uint32_t value = joined(bytes, size);
    bool is_surrogate = value >= 0xD800 && value <= 0xDFFF;
    return value >= least[size] && value <= 0x10FFFF && !is_surrogate ? size : 0;
}

void text_shown(FILE *to, const uint8_t *bytes, size_t length)
{
    for (size_t i = 0; i < length;) {
        size_t size = character(bytes + i, length - i);
        if (size == 0)
            put_escape(to, bytes[i++]);
        for (; size > 0; size--)
            putc(bytes[i++], to);
    }
}

void text_path(FILE *to, const char *path)
{
    text_shown(to, (const uint8_t *)path, strlen(path));
}

/*
 * Words read and written by plain C, as fast as its library goes: memchr and memcmp over runs of '1', memset. With the checks of rules 11
 * to 14 and 19, but no rule or place: a word or table that one of them turns down gives 0. The benchmark holds the library against it.
 */
#include <stdint.h>
#include <string.h>

#define MOST_SYMBOLS 600000
#define MOST_INSTRUCTIONS 8192

static char ones[MOST_SYMBOLS];

/* The number of instructions, which are put into kinds and operands. */
size_t plain_read_word(const char *word, size_t len, uint8_t *kinds, uint32_t *operands, size_t room)
{
    const char *at = word, *end = word + len;
    size_t count = 0;

    if (ones[0] == 0)
        memset(ones, '1', sizeof ones);
    if (len == 0 || len > MOST_SYMBOLS)
        return 0;
    while (at < end) {
        const char *mark = memchr(at, '#', (size_t)(end - at));
        size_t operand, kind = 1;
        if (mark == NULL || mark == at || count == MOST_INSTRUCTIONS || count == room)
            return 0;
        operand = (size_t)(mark - at);
        if (memcmp(at, ones, operand) != 0)
            return 0;
        while (mark + kind < end && mark[kind] == '#')
            kind++;
        if (kind > 5)
            return 0;
        kinds[count] = (uint8_t)kind;
        operands[count++] = (uint32_t)operand;
        at = mark + kind;
    }
    return count;
}

/* The number of symbols, which are put into the word. */
size_t plain_write_word(const uint8_t *kinds, const uint32_t *operands, size_t count, char *word, size_t room)
{
    uint64_t symbols = 0;
    char *at = word;

    if (count == 0 || count > MOST_INSTRUCTIONS)
        return 0;
    for (size_t i = 0; i < count; i++) {
        if (kinds[i] < 1 || kinds[i] > 5 || operands[i] == 0)
            return 0;
        symbols += (uint64_t)kinds[i] + operands[i];
    }
    if (symbols > MOST_SYMBOLS || symbols > room)
        return 0;
    for (size_t i = 0; i < count; i++) {
        memset(at, '1', operands[i]);
        at += operands[i];
        memset(at, '#', kinds[i]);
        at += kinds[i];
    }
    return (size_t)symbols;
}

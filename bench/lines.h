/* What the programs by hand read of a trace: the words of a line, checked as `hept` checks them. */
#include <stdbool.h>
#include <stdint.h>
#include <stdio.h>
#include <stdlib.h>
#include <string.h>

enum { LINE = 65536 + 2 };

static inline bool is_blank(char c) { return c == ' ' || c == '\t' || c == '\r'; }

/* The next word of a line, or false where there is none. */
static inline bool next_word(char **at, char **word, size_t *length) {
    while (is_blank(**at)) ++*at;
    *word = *at;
    while (**at && **at != '\n' && !is_blank(**at)) ++*at;
    *length = (size_t)(*at - *word);
    return *length > 0;
}

/* Whether no word is left. */
static inline bool is_done(char *at) {
    while (is_blank(*at)) at++;
    return !*at || *at == '\n';
}

static inline bool read_bool(char **at, bool *value) {
    char *word;
    size_t length;
    if (!next_word(at, &word, &length)) return false;
    if (length == 4 && memcmp(word, "true", 4) == 0) return *value = true, true;
    if (length == 5 && memcmp(word, "false", 5) == 0) return *value = false, true;
    return false;
}

static inline bool read_int(char **at, int32_t *value) {
    char *word;
    size_t length;
    if (!next_word(at, &word, &length)) return false;
    size_t i = word[0] == '-';
    int64_t number = 0;
    if (i == length) return false;
    for (; i < length; i++) {
        if (word[i] < '0' || word[i] > '9') return false;
        number = 10 * number + (word[i] - '0');
        if (number > 2147483648) return false;
    }
    if (word[0] == '-') number = -number;
    if (number > 2147483647) return false;
    *value = (int32_t)number;
    return true;
}

static inline int32_t wrapped_sum(int32_t a, int32_t b) { return (int32_t)((uint32_t)a + (uint32_t)b); }

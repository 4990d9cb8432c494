#define _GNU_SOURCE
/* The machines of make.py as a C programmer would write them, with the same trace lines: see README.md. */
#include "../lines.h"

enum { CASES = 64, INSTANCES = 60, OUTPUTS = 64, DEPTH = 299, LONGEST = 70 };

static int32_t counter(bool up) {
    static int at, total;
    switch (at) {
#define PHASE(k) case k: total = wrapped_sum(total, k); if (up) at = (k + 1) % CASES; break;
#define PHASES(k) PHASE(k) PHASE(k + 1) PHASE(k + 2) PHASE(k + 3) PHASE(k + 4) PHASE(k + 5) PHASE(k + 6) PHASE(k + 7)
        PHASES(0) PHASES(8) PHASES(16) PHASES(24) PHASES(32) PHASES(40) PHASES(48) PHASES(56)
    }
    return total;
}

static int32_t chain(int32_t x) {
    static int32_t kept[INSTANCES];
    int32_t y = 0;
    for (int k = 0; k < INSTANCES; k++) {
        y = wrapped_sum(y, kept[k]);
        kept[k] = x;
    }
    return y;
}

/* The words of the phases, each with a blank behind it. */
static char names[CASES][8];

static void wide(bool up) {
    static int at;
    if (up) at = (at + 1) % CASES;
    char line[OUTPUTS * 8], *end = line;
    size_t length = strlen(names[at]);
    for (int k = 0; k < OUTPUTS; k++) {
        memcpy(end, names[at], length);
        end += length;
    }
    end[-1] = '\n';
    fwrite(line, 1, (size_t)(end - line), stdout);
}

static bool deep(bool x) {
    bool y = false;
    for (int k = 0; k < LONGEST; k++) {
        int depth = 0;
        while (depth < DEPTH && x) depth++;
        y = depth == DEPTH && (k ? y : x);
    }
    return y;
}

static void put_bool(bool value) { fputs(value ? "true\n" : "false\n", stdout); }

int main(int count, char **words) {
    char *buffer = NULL;
    size_t room = 0;
    const char *what = count == 2 ? words[1] : "";
    bool is_chain = strcmp(what, "chain") == 0, is_counter = strcmp(what, "counter") == 0;
    bool is_wide = strcmp(what, "wide") == 0, is_deep = strcmp(what, "deep") == 0;
    for (int k = 0; k < CASES; k++) snprintf(names[k], sizeof names[k], "P%d ", k);
    while (getline(&buffer, &room, stdin) > 0) {
        char *at = buffer;
        bool up = false;
        int32_t x = 0;
        if (is_chain ? !read_int(&at, &x) : !read_bool(&at, &up)) return 3;
        if (!is_done(at)) return 3;
        if (is_chain) printf("%d\n", chain(x));
        else if (is_counter) printf("%d\n", counter(up));
        else if (is_wide) wide(up);
        else put_bool(is_deep ? deep(up) : up);
    }
    return 0;
}

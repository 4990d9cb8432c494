/* The programs of make.py as a compiler of the language would write them in C, a memory and a step for each node: see README.md. */
#include "../lines.h"

enum { CALLS = 60 };

static int32_t counter(bool up, bool again) {
    static int32_t kept;
    if (again) kept = 0;
    int32_t n = wrapped_sum(kept, up ? 1 : 0);
    kept = n;
    return n;
}

#define STATE(k, n) case k: y = wrapped_sum(last, k); if (up) state = (k + 1) % n; break;
#define FIVE(k, n) STATE(k, n) STATE(k + 1, n) STATE(k + 2, n) STATE(k + 3, n) STATE(k + 4, n)
#define TWENTY(k, n) FIVE(k, n) FIVE(k + 5, n) FIVE(k + 10, n) FIVE(k + 15, n)
#define HUNDRED(k, n) TWENTY(k, n) TWENTY(k + 20, n) TWENTY(k + 40, n) TWENTY(k + 60, n) TWENTY(k + 80, n)

static int32_t states(bool up) {
    static int state;
    static int32_t last;
    int32_t y = 0;
    switch (state) {
        TWENTY(0, 20)
    }
    last = y;
    return y;
}

static int32_t states200(bool up) {
    static int state;
    static int32_t last;
    int32_t y = 0;
    switch (state) {
        HUNDRED(0, 200) HUNDRED(100, 200)
    }
    last = y;
    return y;
}

enum outer { WORK, REST };
enum inner { RISE, FALL };

static int32_t nested(bool o, bool i) {
    static enum outer outer = WORK;
    static enum inner inner = RISE;
    static bool outer_again, inner_again, rise_first = true, fall_first = true, rest_first = true;
    static int32_t rise, fall, rest;
    enum outer active = outer;
    bool again = outer_again;
    if (active == REST && i) active = WORK, again = true;
    int32_t x = 0;
    switch (active) {
    case WORK:
        if (again) inner = RISE, inner_again = false, rise_first = true, fall_first = true;
        switch (inner) {
        case RISE:
            if (inner_again) rise_first = true;
            x = rise = rise_first ? 0 : wrapped_sum(rise, 1);
            rise_first = false;
            inner_again = i;
            inner = i ? FALL : RISE;
            break;
        case FALL:
            if (inner_again) fall_first = true;
            x = fall = fall_first ? 100 : wrapped_sum(fall, -1);
            fall_first = false;
            inner_again = false;
            inner = i ? RISE : FALL;
            break;
        }
        outer_again = o;
        outer = o ? REST : WORK;
        break;
    case REST:
        if (again) rest_first = true;
        x = rest = rest_first ? -1 : wrapped_sum(rest, -1);
        rest_first = false;
        outer_again = false;
        outer = o ? WORK : REST;
        break;
    }
    return x;
}

static int32_t filtered(int32_t x, bool c) {
    static int32_t sum, kept;
    int32_t z = c ? (sum = wrapped_sum(x, sum)) : kept;
    kept = z;
    return z;
}

struct call {
    int32_t kept;
};

static int32_t calls(int32_t x) {
    static struct call memory[CALLS];
    int32_t y = 0;
    for (int k = 0; k < CALLS; k++) {
        y = wrapped_sum(y, memory[k].kept);
        memory[k].kept = x;
    }
    return y;
}

int main(int count, char **words) {
    static char buffer[LINE];
    if (count != 2) return 2;
    char what = words[1][0] == 'c' ? words[1][1] : words[1][0]; /* o, a, s, n or f; 2 for states200 */
    if (what == 's' && words[1][6]) what = words[1][6];
    while (fgets(buffer, LINE, stdin)) {
        char *at = buffer;
        bool a = false, b = false;
        int32_t x = 0, y = 0;
        switch (what) {
        case 'o':
            if (!read_bool(&at, &a) || !read_bool(&at, &b)) return 3;
            y = counter(a, b);
            break;
        case 's':
            if (!read_bool(&at, &a)) return 3;
            y = states(a);
            break;
        case '2':
            if (!read_bool(&at, &a)) return 3;
            y = states200(a);
            break;
        case 'n':
            if (!read_bool(&at, &a) || !read_bool(&at, &b)) return 3;
            y = nested(a, b);
            break;
        case 'f':
            if (!read_int(&at, &x) || !read_bool(&at, &a)) return 3;
            y = filtered(x, a);
            break;
        case 'a':
            if (!read_int(&at, &x)) return 3;
            y = calls(x);
            break;
        default:
            return 2;
        }
        if (!is_done(at)) return 3;
        printf("%d\n", y);
    }
    return 0;
}

/* Operands: registers, values and relations. */
#include "play_on_libpth.h"

long *register_of(struct thread *t, const char *word) {
    if ((word[0] != 'a' && word[0] != 'v') || word[1] < '0' || word[1] > '9') return NULL;
    int n = atoi(word + 1);
    if (word[0] == 'a') return t != NULL && n < REGISTERS ? &t->a[n] : NULL;
    return n < LOCKS ? &v[n] : NULL;
}

int is_value(struct thread *t, const char *word) {
    if (is(word, "err") || register_of(t, word) != NULL) return 1;
    return !is(word, "-") && strspn(word, "-0123456789") == strlen(word);
}

long value_of(struct thread *t, const char *word) {
    if (is(word, "err")) return t->err;
    long *r = register_of(t, word);
    return r != NULL ? *r : atol(word);
}

long value_in_act(const char *word, long arg) {
    if (is(word, "arg")) return arg;
    long *r = register_of(NULL, word);
    return r != NULL ? *r : atol(word);
}

int holds(long x, const char *relation, long y) {
    if (is(relation, "eq")) return x == y;
    if (is(relation, "ne")) return x != y;
    if (is(relation, "lt")) return x < y;
    if (is(relation, "le")) return x <= y;
    if (is(relation, "gt")) return x > y;
    return x >= y;
}

long sum(long x, long y) {
    long s;
    return __builtin_add_overflow(x, y, &s) ? (x < 0 ? -__LONG_MAX__ - 1 : __LONG_MAX__) : s;
}

/* How many translations a second the library for C makes, to texts and to arrays: calls FORMULA SECONDS. */
#include <ltl2ba.h>
#include <stdio.h>
#include <stdlib.h>
#include <string.h>
#include <time.h>

static double now(void)
{
    struct timespec it;
    clock_gettime(CLOCK_MONOTONIC, &it);
    return it.tv_sec + it.tv_nsec * 1e-9;
}

static const uint8_t *formula;
static size_t formula_length;

static int to_text(void)
{
    static uint8_t buffer[1 << 20];
    struct ltl2ba_options options = {0};
    struct ltl2ba_refusal refusal;
    size_t length;
    return ltl2ba_text(formula, formula_length, &options, buffer, sizeof buffer, &length, &refusal);
}

static int to_arrays(void)
{
    static struct ltl2ba_state states[1 << 10];
    static struct ltl2ba_edge edges[1 << 14];
    static struct ltl2ba_name names[256];
    struct ltl2ba_options options = {0};
    struct ltl2ba_counts counts;
    return ltl2ba_automaton(formula, formula_length, &options, states, 1 << 10, edges, 1 << 14, names, 256, &counts);
}

/* How many calls a second; -1 where one of them fails. */
static double rate(int (*call)(void), double seconds)
{
    long calls = 0;
    double begun = now(), ended;
    do {
        if (call() != LTL2BA_DONE)
            return -1;
        calls++;
    } while ((ended = now()) - begun < seconds);
    return calls / (ended - begun);
}

int main(int count, char **words)
{
    if (count != 3)
        return 2;
    formula = (const uint8_t *)words[1];
    formula_length = strlen(words[1]);
    double texts = rate(to_text, atof(words[2])), arrays = rate(to_arrays, atof(words[2]));
    printf("%.0f %.0f\n", texts, arrays);
    return texts < 0 || arrays < 0;
}

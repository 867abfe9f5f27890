/* Prints the Büchi automaton of a formula for Graphviz' dot: ./dot '[](p -> <>q)' | dot -Tsvg >automaton.svg */
#include <ltl2ba.h>
#include <stdio.h>
#include <stdlib.h>
#include <string.h>

static int tell(const struct ltl2ba_refusal *refusal, int status)
{
    uint8_t line[128];
    size_t length;
    ltl2ba_message(LTL2BA_TRANSLATOR, refusal, line, sizeof line, &length);
    fwrite(line, 1, length, stderr);
    return status;
}

static bool has(const uint64_t *set, size_t i)
{
    return set[i / 64] >> i % 64 & 1;
}

/* What has to hold at the position where the edge is taken. */
static void print_label(const char *formula, const struct ltl2ba_name *names, size_t count, const struct ltl2ba_edge *edge)
{
    const char *before = "";
    for (size_t i = 0; i < count; i++)
        if (has(edge->asked_true, i) || has(edge->asked_false, i)) {
            printf("%s%s%.*s", before, has(edge->asked_true, i) ? "" : "!", (int)names[i].length, formula + names[i].offset);
            before = " && ";
        }
    if (!*before)
        printf("true");
}

static void print_automaton(const char *formula, const struct ltl2ba_state *states, const struct ltl2ba_edge *edges,
                            const struct ltl2ba_name *names, const struct ltl2ba_counts *counts)
{
    printf("digraph {\n  start [shape=point]\n  start -> 0\n");
    for (size_t i = 0; i < counts->states; i++) {
        size_t end = i + 1 < counts->states ? states[i + 1].first_edge : counts->edges;
        printf("  %zu [shape=%s]\n", i, states[i].accepting ? "doublecircle" : "circle");
        for (size_t k = states[i].first_edge; k < end; k++) {
            printf("  %zu -> %zu [label=\"", i, edges[k].target);
            print_label(formula, names, counts->names, &edges[k]);
            printf("\"]\n");
        }
    }
    printf("}\n");
}

int main(int count, char **words)
{
    const char *formula = count == 2 ? words[1] : "[](p -> <>q)";
    struct ltl2ba_options options = {.layout = LTL2BA_HOA};
    struct ltl2ba_counts counts = {.states = 8, .edges = 32, .names = 8};
    struct ltl2ba_state *states = NULL;
    struct ltl2ba_edge *edges = NULL;
    struct ltl2ba_name *names = NULL;
    int status;
    do {
        size_t lengths[] = {counts.states, counts.edges, counts.names};
        free(states), free(edges), free(names);
        states = malloc(lengths[0] * sizeof *states + 1), edges = malloc(lengths[1] * sizeof *edges + 1), names = malloc(lengths[2] * sizeof *names + 1);
        if (!states || !edges || !names)
            return LTL2BA_OUT_OF_MEMORY;
        status = ltl2ba_automaton((const uint8_t *)formula, strlen(formula), &options, states, lengths[0], edges, lengths[1], names, lengths[2], &counts);
    } while (status == LTL2BA_TOO_SHORT);
    if (status == LTL2BA_DONE)
        print_automaton(formula, states, edges, names, &counts);
    free(states), free(edges), free(names);
    return status == LTL2BA_DONE ? 0 : tell(&counts.refusal, status);
}

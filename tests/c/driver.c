/* Makes the calls of include/ltl2ba.h that its standard input asks for, and writes what they answer.

   A request is a line `KIND LAYOUT FLAGS ROOM FIRST SECOND` and then the bytes of two texts of these lengths. KIND is t (text), n (names), e (evaluation),
   c (check), d (picture), r (reduction), k (claim), a (automaton) or m (comparison), FLAGS has 1, 2 and 4 for no_rewrite, keep_implied and keep_equal. ROOM is the length of the
   buffer; with -1 a call with no room asks for the length, and a second one has exactly that; with -2 that is done with each growth of memory refused in
   turn, until none was left to refuse. Of an automaton it is the length of the array that the second text names, s (states), e (edges) or n (names), and the other two have the
   length that is needed; of a comparison FLAGS is 0 if that is the length of the first buffer, and 1 if it is that of the second one. The answer is a line `STATUS LENGTH MESSAGE COUNTS` and the bytes of the text and of the message; COUNTS are three numbers, and of a
   text the third is 1 where what stands behind the text was changed. The text of an automaton is a line with its four counts, and behind it, with status 0,
   what the Hanoi Omega-Automata format says of the names, which have their places beside them, of states and of edges. That of a comparison is a line with
   the two lengths, the two implications and the subject, and behind it, with status 0 or 1, what the program prints.

   It is linked with --wrap for malloc and realloc. */
#include <ltl2ba.h>
#include <stdio.h>
#include <stdlib.h>
#include <string.h>

void *__real_malloc(size_t size);
void *__real_realloc(void *held, size_t size);

static long left_to_refuse = 0;

static int is_refused(void)
{
    return left_to_refuse > 0 && --left_to_refuse == 0;
}

void *__wrap_malloc(size_t size)
{
    return is_refused() ? NULL : __real_malloc(size);
}

void *__wrap_realloc(void *held, size_t size)
{
    return is_refused() ? NULL : __real_realloc(held, size);
}

struct request {
    char kind;
    unsigned layout, flags;
    long room;
    size_t first_length, second_length;
    uint8_t *first, *second;
};

/* The length of a buffer, those of three arrays, or those of two buffers. */
struct room {
    size_t bytes, states, edges, names, first, second;
};

struct answer {
    int status;
    size_t length, growths, truth;
    struct room needed;
    struct ltl2ba_refusal refusal;
    struct ltlclaim_refusal of_claim;
    uint32_t subject;
    uint8_t *text;
    int is_changed;
};

static void *room_for(size_t count, size_t size)
{
    void *room = __real_malloc(count * size + 1);
    if (!room)
        exit(9);
    memset(room, 0xa5, count * size + 1);
    return room;
}

/* Whether a byte of an array was changed behind so many elements. */
static int is_changed_behind(const void *array, size_t count, size_t room, size_t size)
{
    const uint8_t *bytes = array;
    for (size_t i = count * size; i < room * size + 1; i++)
        if (bytes[i] != 0xa5)
            return 1;
    return 0;
}

static void put_set(FILE *to, const uint64_t *set)
{
    const char *before = " {";
    for (size_t i = 0; i < 256; i++)
        if (set[i / 64] >> i % 64 & 1) {
            fprintf(to, "%s%zu", before, i);
            before = " ";
        }
    if (*before == ' ' && !before[1])
        fputs("}", to);
}

static void put_edge(FILE *to, const struct ltl2ba_edge *edge)
{
    const char *before = "[";
    for (size_t i = 0; i < 512; i++) {
        const uint64_t *asked = i % 2 ? edge->asked_false : edge->asked_true;
        if (asked[i / 128] >> i / 2 % 64 & 1) {
            fprintf(to, i % 2 ? "%s!%zu" : "%s%zu", before, i / 2);
            before = "&";
        }
    }
    fprintf(to, *before == '[' ? "[t] %zu" : "] %zu", edge->target);
    put_set(to, edge->sets);
    fputs("\n", to);
}

/* Each state of a generalized automaton is accepting, which its text doesn't tell. */
static void put_automaton(FILE *to, const struct request *asked, const struct ltl2ba_state *states, const struct ltl2ba_edge *edges, const struct ltl2ba_name *names, const struct ltl2ba_counts *counts)
{
    int is_told = asked->layout != LTL2BA_GENERALIZED;
    fprintf(to, "AP: %zu", counts->names);
    for (size_t i = 0; i < counts->names; i++)
        fprintf(to, " \"%.*s\" at %zu", (int)names[i].length, (const char *)asked->first + names[i].offset, names[i].offset);
    fputs("\n", to);
    for (size_t i = 0; i < counts->states; i++) {
        fprintf(to, "State: %zu%s\n", i, states[i].accepting == is_told ? is_told ? " {0}" : " rejects" : "");
        for (size_t k = states[i].first_edge; k < (i + 1 < counts->states ? states[i + 1].first_edge : counts->edges); k++)
            put_edge(to, edges + k);
    }
}

/* One call, with arrays of these lengths. */
static struct answer call_automaton(const struct request *asked, const struct ltl2ba_options *options, struct room room)
{
    struct answer made = {0};
    struct ltl2ba_counts counts;
    struct ltl2ba_state *states = room_for(room.states, sizeof *states);
    struct ltl2ba_edge *edges = room_for(room.edges, sizeof *edges);
    struct ltl2ba_name *names = room_for(room.names, sizeof *names);
    memset(&counts, 0xa5, sizeof counts);
    made.status = ltl2ba_automaton(asked->first, asked->first_length, options, states, room.states, edges, room.edges, names, room.names, &counts);
    int is_written = made.status == LTL2BA_DONE;
    made.is_changed = is_changed_behind(states, is_written ? counts.states : 0, room.states, sizeof *states)
        || is_changed_behind(edges, is_written ? counts.edges : 0, room.edges, sizeof *edges)
        || is_changed_behind(names, is_written ? counts.names : 0, room.names, sizeof *names);
    long held = left_to_refuse;
    left_to_refuse = 0;
    FILE *to = open_memstream((char **)&made.text, &made.length);
    if (!to)
        exit(9);
    fprintf(to, "%zu %zu %zu %zu\n", counts.states, counts.edges, counts.names, counts.sets);
    if (is_written)
        put_automaton(to, asked, states, edges, names, &counts);
    fclose(to);
    left_to_refuse = held;
    made.needed = (struct room){.states = counts.states, .edges = counts.edges, .names = counts.names};
    made.refusal = counts.refusal;
    free(states);
    free(edges);
    free(names);
    return made;
}

/* What the program prints for a comparison. */
static void put_comparison(FILE *to, const struct ltlcompare_found *found, const uint8_t *first_only, const uint8_t *second_only)
{
    fputs(found->first_implies_second ? found->second_implies_first ? "equivalent\n" : "first implies second\n" : found->second_implies_first ? "second implies first\n" : "incomparable\n", to);
    if (found->first_only_length)
        fprintf(to, "first only: %.*s\n", (int)found->first_only_length, (const char *)first_only);
    if (found->second_only_length)
        fprintf(to, "second only: %.*s\n", (int)found->second_only_length, (const char *)second_only);
}

/* One call, with two buffers of these lengths. */
static struct answer call_comparison(const struct request *asked, struct room room)
{
    struct answer made = {0};
    struct ltlcompare_found found;
    uint8_t *first_only = room_for(room.first, 1), *second_only = room_for(room.second, 1);
    memset(&found, 0xa5, sizeof found);
    made.status = ltlcompare_verdict(asked->first, asked->first_length, asked->second, asked->second_length, first_only, room.first, second_only, room.second, &found);
    int is_written = made.status == LTL2BA_DONE || made.status == LTL2BA_VIOLATED;
    made.is_changed = is_changed_behind(first_only, is_written ? found.first_only_length : 0, room.first, 1)
        || is_changed_behind(second_only, is_written ? found.second_only_length : 0, room.second, 1);
    long held = left_to_refuse;
    left_to_refuse = 0;
    FILE *to = open_memstream((char **)&made.text, &made.length);
    if (!to)
        exit(9);
    fprintf(to, "%zu %zu %d %d %u\n", found.first_only_length, found.second_only_length, found.first_implies_second, found.second_implies_first, (unsigned)found.subject);
    if (is_written)
        put_comparison(to, &found, first_only, second_only);
    fclose(to);
    left_to_refuse = held;
    made.needed = (struct room){.first = found.first_only_length, .second = found.second_only_length};
    made.refusal = found.refusal;
    made.subject = found.subject;
    free(first_only);
    free(second_only);
    return made;
}

/* One call, with a buffer of this length. */
static struct answer call(const struct request *asked, struct room of)
{
    struct answer made = {0};
    struct ltl2ba_options options = {asked->flags & 1, asked->flags >> 1 & 1, asked->flags >> 2 & 1, asked->layout};
    struct ltlcheck_found found;
    size_t room = of.bytes;
    bool holds = false;
    if (asked->kind == 'a')
        return call_automaton(asked, &options, of);
    if (asked->kind == 'm')
        return call_comparison(asked, of);
    memset(&made.refusal, 0xa5, sizeof made.refusal);
    made.text = room_for(room, 1);
    switch (asked->kind) {
    case 't':
        made.status = ltl2ba_text(asked->first, asked->first_length, &options, made.text, room, &made.length, &made.refusal);
        break;
    case 'n':
        made.status = ltl2ba_names(asked->first, asked->first_length, made.text, room, &made.length, &made.refusal);
        break;
    case 'e':
        made.status = ltleval_holds(asked->first, asked->first_length, asked->second, asked->second_length, &holds, &made.refusal);
        made.truth = holds;
        break;
    case 'c':
        made.status = ltlcheck_verdict(asked->first, asked->first_length, asked->second, asked->second_length, made.text, room, &found, &made.refusal);
        made.length = found.length;
        made.truth = found.contained;
        break;
    case 'd':
        made.status = ltldraw_dot(asked->first, asked->first_length, made.text, room, &made.length, &made.refusal);
        break;
    case 'r':
        made.status = ltlreduce_hoa(asked->first, asked->first_length, made.text, room, &made.length, &made.refusal);
        break;
    case 'k':
        memset(&made.of_claim, 0xa5, sizeof made.of_claim);
        made.status = ltlclaim_hoa(asked->first, asked->first_length, made.text, room, &made.length, &made.of_claim);
        made.refusal.kind = made.of_claim.kind;
        break;
    default:
        exit(7);
    }
    size_t written = made.status == LTL2BA_TOO_SHORT || asked->kind == 'e' ? 0 : made.length;
    for (size_t i = written; i < room + 1; i++)
        made.is_changed |= made.text[i] != 0xa5;
    made.needed.bytes = made.length;
    return made;
}

static void let_go(struct answer *made)
{
    free(made->text);
}

/* With room for exactly what is needed. */
static struct answer call_twice(const struct request *asked)
{
    struct answer made = call(asked, (struct room){0});
    if (made.status != LTL2BA_TOO_SHORT)
        return made;
    struct room needed = made.needed;
    let_go(&made);
    return call(asked, needed);
}

/* With room for so many bytes, or so many elements of the array or bytes of the buffer that is asked for. */
static struct answer call_within(const struct request *asked, size_t room)
{
    struct room of = {.bytes = room};
    if (asked->kind != 'a' && asked->kind != 'm')
        return call(asked, of);
    struct answer made = call(asked, of);
    of = made.needed;
    let_go(&made);
    if (asked->kind == 'm')
        *(asked->flags ? &of.second : &of.first) = room;
    else
        *(asked->second[0] == 's' ? &of.states : asked->second[0] == 'e' ? &of.edges : &of.names) = room;
    return call(asked, of);
}

/* With each growth refused in turn: such a call answers that, and the next one what is right. */
static struct answer call_refused(const struct request *asked)
{
    struct answer right = call_twice(asked);
    for (long refused = 1;; refused++) {
        left_to_refuse = refused;
        struct answer made = call(asked, right.needed);
        int was_met = left_to_refuse == 0;
        left_to_refuse = 0;
        if (was_met ? made.status != LTL2BA_OUT_OF_MEMORY || made.refusal.kind != LTL2BA_NO_MEMORY : made.status != right.status)
            right.status = 90;
        let_go(&made);
        made = call(asked, right.needed);
        if (made.status != right.status || made.length != right.length)
            right.status = 91;
        let_go(&made);
        if (!was_met) {
            right.growths = refused - 1;
            return right;
        }
    }
}

/* Whether there is a refusal exactly with the status of one. */
static int is_refusal(int status, uint32_t kind)
{
    return (kind != LTL2BA_NO_REFUSAL) == (status != LTL2BA_DONE && status != LTL2BA_VIOLATED && status != LTL2BA_TOO_SHORT);
}

/* The same, and each number that it doesn't have is 0. */
static int is_exact_claim(int status, const struct ltlclaim_refusal *refusal)
{
    int has_fault = refusal->kind == LTL2BA_BAD_CLAIM, has_none = !refusal->fault && !refusal->line && !refusal->column;
    int is_known = has_fault || refusal->kind == LTL2BA_NO_MEMORY || refusal->kind == LTL2BA_NO_REFUSAL;
    return is_refusal(status, refusal->kind) && is_known && (has_fault ? refusal->fault <= LTLCLAIM_BAD_TOKEN && refusal->line && refusal->column : has_none);
}

static int is_exact(int status, const struct ltl2ba_refusal *refusal)
{
    int has_fault = refusal->kind == LTL2BA_BAD_FORMULA || refusal->kind == LTL2BA_BAD_AUTOMATON;
    int has_place = has_fault || refusal->kind == LTL2BA_BAD_WORD;
    return is_refusal(status, refusal->kind) && refusal->kind <= LTL2BA_LARGE_PRODUCT && (has_fault || !refusal->fault) && (has_place || !refusal->place);
}

/* The number of the program whose line says why such a request was refused. */
static uint32_t program_of(char kind, const struct answer *made)
{
    switch (kind) {
    case 'c':
        return LTL2BA_CHECKER;
    case 'e':
        return LTL2BA_EVALUATOR;
    case 'm':
        return LTL2BA_COMPARER + made->subject;
    case 'd':
        return LTL2BA_DRAWER;
    case 'r':
        return LTL2BA_REDUCER;
    default:
        return LTL2BA_TRANSLATOR;
    }
}

static void answer(const struct request *asked, struct answer *made)
{
    int is_claim = asked->kind == 'k';
    if (made->status < 90 && !(is_claim ? is_exact_claim(made->status, &made->of_claim) : is_exact(made->status, &made->refusal)))
        made->status = 92;
    uint8_t line[128];
    int has_lengths = asked->kind == 'a' || asked->kind == 'm';
    size_t told, length = (made->status == LTL2BA_TOO_SHORT && !has_lengths) || asked->kind == 'e' || asked->room == -2 ? 0 : made->length;
    if (is_claim)
        ltlclaim_message(&made->of_claim, line, sizeof line, &told);
    else
        ltl2ba_message(program_of(asked->kind, made), &made->refusal, line, sizeof line, &told);
    printf("%d %zu %zu %zu %zu %zu\n", made->status, length, told, made->length, made->growths, asked->kind == 'e' || asked->kind == 'c' ? made->truth : (size_t)made->is_changed);
    fwrite(made->text, 1, length, stdout);
    fwrite(line, 1, told, stdout);
    let_go(made);
}

int main(void)
{
    struct request asked;
    while (scanf("%c %u %u %ld %zu %zu", &asked.kind, &asked.layout, &asked.flags, &asked.room, &asked.first_length, &asked.second_length) == 6 && getchar() == '\n') {
        asked.first = room_for(asked.first_length, 1);
        asked.second = room_for(asked.second_length, 1);
        if (fread(asked.first, 1, asked.first_length, stdin) != asked.first_length || fread(asked.second, 1, asked.second_length, stdin) != asked.second_length)
            return 8;
        struct answer made = asked.room == -1 ? call_twice(&asked) : asked.room == -2 ? call_refused(&asked) : call_within(&asked, asked.room);
        answer(&asked, &made);
        free(asked.first);
        free(asked.second);
    }
    return 0;
}

/* Says which of two formulas implies the other one, and prints a word for each direction that fails, as ltlcompare does: ./compare '<>[]p' '[]<>p' */
#include <ltl2ba.h>
#include <stdio.h>
#include <stdlib.h>
#include <string.h>

static void put_word(const char *label, const uint8_t *word, size_t length)
{
    if (length)
        printf("%s only: %.*s\n", label, (int)length, (const char *)word);
}

static void put_answer(const struct ltlcompare_found *found, const uint8_t *first_only, const uint8_t *second_only)
{
    static const char *answers[] = {"incomparable", "second implies first", "first implies second", "equivalent"};
    puts(answers[2 * found->first_implies_second + found->second_implies_first]);
    put_word("first", first_only, found->first_only_length);
    put_word("second", second_only, found->second_only_length);
}

static void refuse(const struct ltlcompare_found *found)
{
    uint8_t line[128];
    size_t length;
    ltl2ba_message(LTL2BA_COMPARER + found->subject, &found->refusal, line, sizeof line, &length);
    fwrite(line, 1, length, stderr);
}

int main(int count, char **words)
{
    const char *first = count == 3 ? words[1] : "<>[]p", *second = count == 3 ? words[2] : "[]<>p";
    struct ltlcompare_found found = {.first_only_length = 200, .second_only_length = 200};
    uint8_t *first_only = NULL, *second_only = NULL;
    int status;

    do {
        size_t first_room = found.first_only_length, second_room = found.second_only_length;
        free(first_only);
        free(second_only);
        first_only = malloc(first_room + 1);
        second_only = malloc(second_room + 1);
        if (!first_only || !second_only)
            return LTL2BA_OUT_OF_MEMORY;
        status = ltlcompare_verdict((const uint8_t *)first, strlen(first), (const uint8_t *)second, strlen(second), first_only, first_room, second_only, second_room, &found);
    } while (status == LTL2BA_TOO_SHORT);
    if (status <= LTL2BA_VIOLATED)
        put_answer(&found, first_only, second_only);
    else
        refuse(&found);
    free(first_only);
    free(second_only);
    return status;
}

/* SPDX-License-Identifier: MIT OR Apache-2.0 */
/* The translator, the checker, the evaluator, the comparer, pictures, the reader of claims and reductions as a library: linear temporal logic to Büchi
   automata.

   The calls do the work of the programs ltl2ba, ltlcheck, ltleval, ltlcompare, ltldraw, ltlclaim and ltlreduce over texts in memory, and return their exit
   statuses: see ltl2ba(3), and for the texts ltl2ba(1), ltlcheck(1), ltleval(1), ltlcompare(1), ltldraw(1), ltlclaim(1) and ltlreduce(1). What the library does is
   proved for every input, on the conditions below. That this header declares it correctly isn't proved: a test compares calls, structures and numbers with the library's sources.

   No call prints anything, ends the process, or keeps anything between calls: a call frees all its memory before it returns, so the caller has nothing to
   free. Any number of threads may call at the same time, each with buffers of its own.

   The caller has to keep these conditions:
   - A pointer with a length is valid for this many elements, and is not null, not even with length 0. Every other pointer points to an object.
   - A buffer, or an object that is written to, overlaps no other argument of the same call.
   - During a call no other thread writes to any of its arguments, not even to a text or to the options, or reads what the call writes to.
   - What a call reads is initialised: the texts, the options, in which a bool is 0 or 1, and the refusal of ltl2ba_message and of ltlclaim_message.
   - malloc, realloc and free belong to one allocator, which aligns a block to each power of two up to 16 that divides its size.
   - No call is made in a signal handler, or in the child of a fork of a process with several threads.
   - There is room for 64 KiB on the stack.

   The proof takes all arguments as references of Rust, whose memory is initialised. No call reads what a buffer, an array or a result held before, so these may
   be uninitialised; no statement of the proof says so.

   No text ends with a zero byte: each has a length. */
#ifndef LTL2BA_H
#define LTL2BA_H

#include <stdbool.h>
#include <stddef.h>
#include <stdint.h>

#ifdef __cplusplus
extern "C" {
#endif

/* The version of the library and of the programs: of this header, not of the archive that is linked. */
#define LTL2BA_VERSION "1.1"
#define LTL2BA_VERSION_MAJOR 1
#define LTL2BA_VERSION_MINOR 1

/* The number in the name of the shared library, libltl2ba.so.1. It grows if a program that was linked with an older one couldn't run with this one; new
   calls and numbers don't change it. */
#define LTL2BA_ABI 1

/* Statuses: those of the programs, and one of a buffer that is too short. */
#define LTL2BA_DONE 0          /* done; of a check: each word satisfies the formula; of an evaluation: the formula holds; of two formulas: they are equivalent */
#define LTL2BA_VIOLATED 1      /* of a check: a word violates the formula; of an evaluation: the formula doesn't hold; of two formulas: they aren't equivalent */
#define LTL2BA_USAGE 2         /* the options have no meaning */
#define LTL2BA_REFUSED 3       /* a text was refused */
#define LTL2BA_OUT_OF_MEMORY 4 /* an allocation failed; the call may be made again */
#define LTL2BA_FAILED 5        /* never returned */
#define LTL2BA_TOO_SHORT 6     /* the returned lengths are the needed ones; nothing was written to a buffer or an array */

/* Why a call was refused: with each status from 2 to 5, and else all are 0. */
struct ltl2ba_refusal {
    uint32_t kind;  /* which refusal it is */
    uint32_t fault; /* which fault a formula or an automaton has, by the names below; 0 for other refusals */
    size_t place;   /* the offset of the fault in a formula or a word, from 0; its line in an automaton, from 1; 0 for other refusals */
};

#define LTL2BA_NO_REFUSAL 0
#define LTL2BA_NO_MEANING 1
#define LTL2BA_NO_MEMORY 2
#define LTL2BA_LONG_FORMULA 3
#define LTL2BA_BAD_FORMULA 4 /* fault and place */
#define LTL2BA_TOO_MANY_PROPOSITIONS 5
#define LTL2BA_TOO_MANY_ROWS 6
#define LTL2BA_TOO_MANY_ELEMENTARY_ROWS 7
#define LTL2BA_LARGE_AUTOMATON 8
#define LTL2BA_LONG_WORD 9
#define LTL2BA_BAD_WORD 10      /* place */
#define LTL2BA_BAD_AUTOMATON 11 /* fault and place */
#define LTL2BA_LARGE_PRODUCT 12
#define LTL2BA_BAD_CLAIM 16 /* of ltlclaim_hoa alone: fault, line and column */

/* The faults of LTL2BA_BAD_FORMULA: what is wrong at the place. */
#define LTL2BA_UNEXPECTED_BYTE 0
#define LTL2BA_EXPECTED_OPERAND 1
#define LTL2BA_EXPECTED_OPERATOR_OR_END 2
#define LTL2BA_EXPECTED_CLOSE_OR_OPERATOR 3 /* a closing parenthesis or an operator */

/* The faults of LTL2BA_BAD_AUTOMATON: what is wrong in the line. */
#define LTL2BA_NOT_HOA_VERSION1 0
#define LTL2BA_BAD_TOKEN 1
#define LTL2BA_ITEM_TWICE 2
#define LTL2BA_ITEM_MISSING 3
#define LTL2BA_UNKNOWN_ITEM 4
#define LTL2BA_UNSUPPORTED 5
#define LTL2BA_NUMBER_OUT_OF_RANGE 6
#define LTL2BA_BAD_PROPOSITION_LIST 7
#define LTL2BA_STATE_DEFINED_TWICE 8
#define LTL2BA_TEXT_AFTER_END 9
#define LTL2BA_LIMIT_PASSED 10

/* The options of a translation. All zeros mean the same as the command line without options. */
struct ltl2ba_options {
    bool no_rewrite;   /* -l: the normal form isn't rewritten */
    bool keep_implied; /* -o: transitions that another one implies are kept */
    bool keep_equal;   /* -p: states with the same edges as another one are kept */
    uint32_t layout;   /* one of the following */
};

#define LTL2BA_CLAIM 0       /* a never claim of a Büchi automaton */
#define LTL2BA_HOA 1         /* -H: a Büchi automaton in the Hanoi Omega-Automata format */
#define LTL2BA_GENERALIZED 2 /* -G: a generalized Büchi automaton in that format */

/* Writes the text of a formula's automaton to the buffer, and its length to *length. */
uint8_t ltl2ba_text(const uint8_t *formula, size_t formula_length, const struct ltl2ba_options *options,
                    uint8_t *buffer, size_t buffer_length, size_t *length, struct ltl2ba_refusal *refusal);

/* Writes the names of a formula's propositions to the buffer, from number 0 on, each followed by a zero byte, and the length of all to *length. */
uint8_t ltl2ba_names(const uint8_t *formula, size_t formula_length,
                     uint8_t *buffer, size_t buffer_length, size_t *length, struct ltl2ba_refusal *refusal);

/* An automaton in arrays. State 0 is the initial state. The edges of state i are those from its first_edge up to that of state i + 1, or up to the number of
   edges if it is the last state. An edge may be taken at a position of a word if each proposition of asked_true holds there and none of asked_false does. A
   word is accepted if an infinite path of such edges visits accepting states infinitely often, and takes edges of each acceptance set infinitely often. A
   Büchi automaton has no acceptance sets; in a generalized one all states are accepting. */
struct ltl2ba_state {
    size_t first_edge;
    bool accepting;
};

/* Number i is in a set, of propositions or of acceptance sets, if bit i % 64 of word i / 64 is set. */
struct ltl2ba_edge {
    uint64_t asked_true[4];
    uint64_t asked_false[4];
    uint64_t sets[4];
    size_t target;
};

/* The first occurrence of a proposition's name in the formula's text. Propositions are numbered by first occurrence. */
struct ltl2ba_name {
    size_t offset;
    size_t length;
};

/* The numbers of elements: with status 0 those that were written at the beginnings of the arrays, with LTL2BA_TOO_SHORT those that the arrays have to hold.
   With any other status all are 0, and the refusal says why. */
struct ltl2ba_counts {
    size_t states;
    size_t edges;
    size_t names;
    size_t sets; /* of acceptance, below 257; they have no array of their own */
    struct ltl2ba_refusal refusal;
};

/* Writes the automaton of a formula to the arrays: with layout LTL2BA_CLAIM or LTL2BA_HOA the Büchi automaton whose text ltl2ba_text writes for these options,
   with LTL2BA_GENERALIZED the generalized one. Its states, edges and propositions have the numbers and the order that they have in the text of LTL2BA_HOA or
   LTL2BA_GENERALIZED. Nothing is kept between two calls: the second one translates again. */
uint8_t ltl2ba_automaton(const uint8_t *formula, size_t formula_length, const struct ltl2ba_options *options,
                         struct ltl2ba_state *states, size_t states_length, struct ltl2ba_edge *edges, size_t edges_length,
                         struct ltl2ba_name *names, size_t names_length, struct ltl2ba_counts *counts);

/* Whether a formula holds at the first position of a word: with status 0 it does, with status 1 it doesn't; *holds is true with status 0 only. */
uint8_t ltleval_holds(const uint8_t *formula, size_t formula_length, const uint8_t *word, size_t word_length,
                      bool *holds, struct ltl2ba_refusal *refusal);

struct ltlcheck_found {
    size_t length;  /* of the violating word's text, 0 if there is none */
    bool contained; /* whether each word that the automaton accepts satisfies the formula: true with status 0 only */
};

/* Whether each word that an automaton accepts satisfies a formula: with status 0 each does, with status 1 the buffer has the text of one that doesn't. */
uint8_t ltlcheck_verdict(const uint8_t *formula, size_t formula_length, const uint8_t *automaton, size_t automaton_length,
                         uint8_t *buffer, size_t buffer_length, struct ltlcheck_found *found, struct ltl2ba_refusal *refusal);

/* How two formulas compare. With LTL2BA_TOO_SHORT the lengths are the needed ones; the implications are those of the formulas then, too. With a refusal the
   lengths are 0, and the implications false. */
struct ltlcompare_found {
    size_t first_only_length;      /* of the text of a word that satisfies the first formula and violates the second one, 0 if there is none */
    size_t second_only_length;     /* of the text of a word that satisfies the second formula and violates the first one, 0 if there is none */
    bool first_implies_second;     /* whether each word that satisfies the first formula satisfies the second one */
    bool second_implies_first;     /* whether each word that satisfies the second formula satisfies the first one */
    uint32_t subject;              /* what a refusal is about: one of the following */
    struct ltl2ba_refusal refusal; /* why the formulas weren't compared */
};

#define LTL2BA_NEITHER_ALONE 0  /* the comparison of both; and without a refusal */
#define LTL2BA_FIRST_FORMULA 1  /* the first formula, as it was read */
#define LTL2BA_SECOND_FORMULA 2 /* the second formula, as it was read */

/* Which of two formulas implies the other one: with status 0 each of them does, so they are equivalent. With status 1 one of them doesn't, and its buffer has
   the text of a word that satisfies it and violates the other one: first_only for the first formula, second_only for the second one. Propositions of the same
   name are the same. */
uint8_t ltlcompare_verdict(const uint8_t *first, size_t first_length, const uint8_t *second, size_t second_length,
                           uint8_t *first_only, size_t first_only_length, uint8_t *second_only, size_t second_only_length,
                           struct ltlcompare_found *found);

/* Writes the picture of an automaton, a text in the Hanoi Omega-Automata format, to the buffer, as ltldraw prints it: a graph for Graphviz. */
uint8_t ltldraw_dot(const uint8_t *automaton, size_t automaton_length,
                    uint8_t *buffer, size_t buffer_length, size_t *length, struct ltl2ba_refusal *refusal);

/* Writes a smaller automaton that accepts the same words to the buffer, as ltlreduce prints it: a text in the Hanoi Omega-Automata format. It has no more states,
   edges and acceptance sets than the given one. */
uint8_t ltlreduce_hoa(const uint8_t *automaton, size_t automaton_length,
                      uint8_t *buffer, size_t buffer_length, size_t *length, struct ltl2ba_refusal *refusal);

/* Why a claim was refused: with each status from 2 to 5, and else all are 0. */
struct ltlclaim_refusal {
    uint32_t kind;  /* LTL2BA_NO_REFUSAL, LTL2BA_NO_MEMORY or LTL2BA_BAD_CLAIM */
    uint32_t fault; /* which fault the claim has, by the names below; 0 for other refusals */
    size_t line;    /* the line of the fault, from 1; 0 for other refusals */
    size_t column;  /* its column in bytes, from 1; 0 for other refusals */
};

/* The faults of LTL2BA_BAD_CLAIM: what is wrong at the place. */
#define LTLCLAIM_NOT_A_NEVER_CLAIM 0
#define LTLCLAIM_UNSUPPORTED 1
#define LTLCLAIM_BAD_NAME 2
#define LTLCLAIM_LABEL_TWICE 3
#define LTLCLAIM_ELSE_TWICE 4
#define LTLCLAIM_BREAK_OUTSIDE_OF_DO 5
#define LTLCLAIM_UNDEFINED_LABEL 6
#define LTLCLAIM_TEXT_AFTER_END 7
#define LTLCLAIM_LIMIT_PASSED 8
#define LTLCLAIM_BAD_TOKEN 9

/* Writes the automaton of a never claim of Spin to the buffer, as ltlclaim prints it: a text in the Hanoi Omega-Automata format. It accepts exactly the words
   that the claim accepts. */
uint8_t ltlclaim_hoa(const uint8_t *claim, size_t claim_length,
                     uint8_t *buffer, size_t buffer_length, size_t *length, struct ltlclaim_refusal *refusal);

/* Writes the line that ltlclaim prints for a refusal, with its line feed, to the buffer, and its length to *length. It allocates nothing, and 128 bytes are
   enough for each line. The line is empty if there is no refusal with this number. */
uint8_t ltlclaim_message(const struct ltlclaim_refusal *refusal, uint8_t *buffer, size_t buffer_length, size_t *length);

#define LTL2BA_TRANSLATOR 0 /* ltl2ba */
#define LTL2BA_CHECKER 1    /* ltlcheck */
#define LTL2BA_EVALUATOR 2  /* ltleval */
#define LTL2BA_COMPARER 3   /* ltlcompare, for a refusal of neither formula alone; add the subject of the comparison */
#define LTL2BA_DRAWER 6     /* ltldraw */
#define LTL2BA_REDUCER 7    /* ltlreduce */

/* Writes the line that a program prints for a refusal, with its line feed, to the buffer, and its length to *length. It allocates nothing, and 128 bytes are
   enough for each line. The line is empty if there is no program or no refusal with this number. */
uint8_t ltl2ba_message(uint32_t program, const struct ltl2ba_refusal *refusal, uint8_t *buffer, size_t buffer_length, size_t *length);

#ifdef __cplusplus
}
#endif

#endif

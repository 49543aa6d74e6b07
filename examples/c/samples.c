/*
 * The samples of document 01, and of document 02 what is built, through include/caplune.h alone.
 *
 * Prints `ok NAME` or `FAILED NAME` for each sample and at last `N samples, M failed`; ends with status 1 if any
 * failed. Every call is lent areas that hold a pattern. After it all of their bytes are looked at: those written,
 * those that follow, those around what was lent, and after a refusal every one. `.ci/c` builds and runs it.
 */
#include "caplune.h"

#include <stdbool.h>
#include <stdio.h>
#include <string.h>

/* Some bytes that are lent for reading. */
struct bytes {
    const uint8_t *at;
    size_t length;
};

#define ARRAY(...) ((const uint8_t[]){__VA_ARGS__})
#define BYTES(...) ((struct bytes){ARRAY(__VA_ARGS__), sizeof ARRAY(__VA_ARGS__)})
/* No byte: the pointer is not null. */
#define NOTHING ((struct bytes){ARRAY(0), 0})

/* a of rank 1 and e; f of rank 2 and e. */
#define S BYTES(2, 1, 0, 2, 2, 0)
/* f and e of S as input symbols, and again as output symbols; for M they are a, e and d, e. */
#define PAIRS BYTES(2, 2, 0, 2, 2, 0)
#define T BYTES(1, 0, 3, 0, 3, 0, 1, 0, 0, 1, 0, 1, 0, 0, 0, 1, 0, 1, 0, 0, 1)
#define T_PRIME BYTES(1, 0, 1, 0, 3, 0, 3, 1, 0, 0, 0, 1, 0, 1, 0, 0, 0, 0, 1, 0, 1)
#define U BYTES(1, 0, 3, 0, 3, 0, 3, 0, 0, 1, 0, 1, 0, 0, 0, 1, 0, 1, 0, 0, 0, 0, 1, 0, 1)
/* q(a(x1, x2)) = d(q(x1), d(q(x1), e)), q(e) = d(d(e, e), d(e, e)). */
#define M BYTES(1, 0, 1, 0, 5, 0, 7, 1, 0, 0, 0, 1, 0, 0, 0, 1, 0, 0, 1, 0, 0, 0, 0, 0, 1, 0, 1, 0, 0, 0, 1, 0, 1)
#define CONSTANT BYTES(0, 0, 1, 0, 1)
/* Over PAIRS: the initial term f(q(x1), q(x1)), q(f(x1, x2)) = f(q(x1), q(x2)), q(e) = e. */
#define DOUBLE BYTES(1, 0, 3, 0, 3, 0, 1, 0, 0, 1, 0, 1, 0, 0, 0, 1, 0, 2, 0, 0, 1)
/* a of rank 1 and e to g of rank 1 and c; and a copy, q(a(x1)) = g(q(x1)), q(e) = c. */
#define UNARY BYTES(2, 1, 0, 2, 1, 0)
#define COPY BYTES(1, 0, 1, 0, 2, 0, 1, 1, 0, 0, 0, 1, 0, 0, 1)
/* Over S, with passes 0, 1 and 2 that give e at e. The opening calls pass 0, which calls itself; pass 1 is not reached,
 * and calls pass 2 twice, itself, or pass 0. */
#define OLD_PASS \
    BYTES(3, 0, 1, 0, 1, 0, 1, 0, 3, 0, 1, 0, 1, 0, 1, 1, 0, 1, 0, 0, 1, 0, 0, 1, 2, 1, 2, 0, 1, 1, 2, 0, 1)
#define OLD_OWN BYTES(2, 0, 1, 0, 1, 0, 1, 0, 3, 0, 1, 1, 0, 1, 0, 0, 1, 0, 0, 1, 1, 1, 1, 0, 1)
#define OLD_CALLER BYTES(2, 0, 1, 0, 1, 0, 1, 0, 3, 0, 1, 1, 0, 1, 0, 0, 1, 0, 0, 1, 0, 1, 0, 0, 1)
/* The opening calls pass 1, that calls pass 0, and that calls itself twice. */
#define THROUGH BYTES(2, 0, 1, 0, 3, 0, 1, 0, 1, 0, 1, 1, 1, 0, 0, 1, 0, 1, 0, 0, 1, 1, 0, 0, 1)
/* a and b of rank 1 and e; f of rank 2 and e. Pass 0 calls pass 1 at b only, and that calls itself twice at a. */
#define TWO BYTES(3, 1, 1, 0, 2, 2, 0)
#define AT_SECOND \
    BYTES(2, 0, 1, 0, 1, 0, 1, 0, 1, 0, 3, 0, 1, 0, 1, 1, 0, 1, 0, 1, 1, 0, 1, 0, 0, 1, 1, 1, 1, 0, 1, 0, 1)
/* Over S: only the opening calls pass 0 twice; only pass 0, which the opening does not call; and it calls a pass 1. */
#define OPENING_TWICE BYTES(1, 0, 3, 0, 1, 0, 1, 0, 0, 1, 0, 1, 0, 0, 1, 0, 1)
#define NOT_CALLED BYTES(1, 0, 1, 0, 3, 0, 1, 0, 1, 0, 0, 1, 0, 1, 0, 0, 1)
#define NOT_CALLED_BAD BYTES(1, 0, 1, 0, 3, 0, 1, 0, 1, 0, 0, 1, 0, 1, 1, 0, 1)
/* The small inputs of the rows 2, 3, 4 and 5. */
#define NO_STOCK BYTES(1, 1, 1, 0)
#define NO_TREE BYTES(0)
#define NO_CONTENTS BYTES(1, 0, 3)
#define NO_BODY BYTES(0, 0, 1, 1, 0)

enum {
    /* What a number holds before a call. */
    BEFORE = 7777,
    /* Bytes and records on each side of what is lent. */
    AROUND = 24,
    LONGEST_AREA = CAPLUNE_LONGEST_XML + 1
};

/* An area that is lent for writing, in the middle of bytes that have to stay. */
struct area {
    size_t length;
    uint8_t all[AROUND + LONGEST_AREA + AROUND];
};

/* The area of every call that writes, for caplune_compare that of the tree; and that of the address. */
static struct area area, address_area;

static size_t samples, failures;

static void check(const char *name, bool holds)
{
    samples++;
    failures += holds ? 0 : 1;
    printf("%s %s\n", holds ? "ok" : "FAILED", name);
}

/* The pattern has no byte that a file, a tree, a text or an address can have: all of theirs are below 129. */
static uint8_t pattern(size_t index)
{
    return (uint8_t)(index * 38) | 0x81;
}

static void fill(uint8_t *bytes, size_t length)
{
    for (size_t index = 0; index < length; index++)
        bytes[index] = pattern(index);
}

/* Whether the bytes from `from` on and before `to` are as `fill` left them. */
static bool filled(const uint8_t *bytes, size_t from, size_t to)
{
    for (size_t index = from; index < to; index++)
        if (bytes[index] != pattern(index))
            return false;
    return true;
}

/* Makes both areas ready for a call: of these lengths, and holding the pattern. */
static void lend(size_t length, size_t address_length)
{
    area.length = length;
    address_area.length = address_length;
    fill(area.all, sizeof area.all);
    fill(address_area.all, sizeof address_area.all);
}

static uint8_t *start_of(struct area *lent)
{
    return lent->all + AROUND;
}

/* Whether `lent` has changed in its first `written` bytes at most. */
static bool kept_behind(const struct area *lent, size_t written)
{
    return written <= lent->length && filled(lent->all, 0, AROUND) &&
           filled(lent->all, AROUND + written, sizeof lent->all);
}

/* Whether `lent` has these bytes at its start, and else what it had. */
static bool holds(const struct area *lent, struct bytes written)
{
    return kept_behind(lent, written.length) && memcmp(lent->all + AROUND, written.at, written.length) == 0;
}

/* What a call returned, and its numbers; those that it does not have are BEFORE. */
struct answer {
    uint32_t refusal;
    size_t numbers[5];
};

static struct answer no_answer(void)
{
    return (struct answer){0, {BEFORE, BEFORE, BEFORE, BEFORE, BEFORE}};
}

#define NUMBERS(...) sizeof((size_t[]){__VA_ARGS__}) / sizeof(size_t), (size_t[]){__VA_ARGS__}

/* Whether the first numbers are these and the others as before. */
static bool told(struct answer answer, size_t count, const size_t *numbers)
{
    for (size_t index = 0; index < 5; index++)
        if (answer.numbers[index] != (index < count ? numbers[index] : BEFORE))
            return false;
    return true;
}

/* Whether the call was accepted with these numbers, `first` in one area and `second` in the other. */
static bool shows(struct answer answer, size_t count, const size_t *numbers, struct bytes first, struct bytes second)
{
    return answer.refusal == CAPLUNE_OK && told(answer, count, numbers) && holds(&area, first) &&
           holds(&address_area, second);
}

/* Whether the call was accepted with these numbers and wrote these bytes. */
static bool writes(struct bytes written, struct answer answer, size_t count, const size_t *numbers)
{
    return shows(answer, count, numbers, written, NOTHING);
}

/* Whether the call was accepted with these numbers, and wrote no area. */
static bool gives(struct answer answer, size_t count, const size_t *numbers)
{
    return shows(answer, count, numbers, NOTHING, NOTHING);
}

/* Whether the call was refused by this number, and left all as it was. */
static bool refuses(struct answer answer, uint32_t refusal)
{
    return answer.refusal == refusal && told(answer, 0, NULL) && holds(&area, NOTHING) &&
           holds(&address_area, NOTHING);
}

/* One function for each of the header, with areas and numbers that are looked at. */

static struct answer read_alphabets(struct bytes stock)
{
    struct answer answer = no_answer();
    lend(0, 0);
    answer.refusal = caplune_read_alphabets(stock.at, stock.length, &answer.numbers[0], &answer.numbers[1]);
    return answer;
}

static struct answer read_tree(struct bytes stock, struct bytes tree)
{
    struct answer answer = no_answer();
    size_t *numbers = answer.numbers;
    lend(0, 0);
    answer.refusal = caplune_read_tree(stock.at, stock.length, tree.at, tree.length, &numbers[0], &numbers[1]);
    return answer;
}

static struct answer read_transducer(struct bytes stock, struct bytes file)
{
    struct answer answer = no_answer();
    size_t *numbers = answer.numbers;
    lend(0, 0);
    answer.refusal = caplune_read_transducer(stock.at, stock.length, file.at, file.length, &numbers[0], &numbers[1],
                                             &numbers[2]);
    return answer;
}

static struct answer write_transducer(struct bytes stock, size_t states, struct bytes counts, struct bytes marks,
                                      size_t length)
{
    struct answer answer = no_answer();
    lend(length, 0);
    answer.refusal = caplune_write_transducer(stock.at, stock.length, states, counts.at, counts.length, marks.at,
                                              marks.length, start_of(&area), area.length, &answer.numbers[0]);
    return answer;
}

static struct answer is_linear(struct bytes stock, struct bytes file)
{
    struct answer answer = no_answer();
    lend(0, 0);
    answer.refusal = caplune_is_linear(stock.at, stock.length, file.at, file.length, &answer.numbers[0]);
    return answer;
}

static struct answer translate(struct bytes stock, struct bytes file, struct bytes tree, size_t length)
{
    struct answer answer = no_answer();
    lend(length, 0);
    answer.refusal = caplune_translate(stock.at, stock.length, file.at, file.length, tree.at, tree.length,
                                       start_of(&area), area.length, &answer.numbers[0]);
    return answer;
}

static struct answer symbol_at(struct bytes stock, struct bytes file, struct bytes tree, struct bytes address)
{
    struct answer answer = no_answer();
    lend(0, 0);
    answer.refusal = caplune_symbol_at(stock.at, stock.length, file.at, file.length, tree.at, tree.length, address.at,
                                       address.length, &answer.numbers[0], &answer.numbers[1]);
    return answer;
}

static struct answer earliest_form(struct bytes stock, struct bytes file, size_t length)
{
    struct answer answer = no_answer();
    size_t *numbers = answer.numbers;
    lend(length, 0);
    answer.refusal = caplune_earliest_form(stock.at, stock.length, file.at, file.length, start_of(&area), area.length,
                                           &numbers[0], &numbers[1], &numbers[2]);
    return answer;
}

static struct answer clean(struct bytes stock, struct bytes file, size_t length)
{
    struct answer answer = no_answer();
    size_t *numbers = answer.numbers;
    lend(length, 0);
    answer.refusal = caplune_clean(stock.at, stock.length, file.at, file.length, start_of(&area), area.length,
                                   &numbers[0], &numbers[1], &numbers[2]);
    return answer;
}

static struct answer join(struct bytes first_stock, struct bytes second_stock, struct bytes first,
                          struct bytes second, size_t length)
{
    struct answer answer = no_answer();
    size_t *numbers = answer.numbers;
    lend(length, 0);
    answer.refusal = caplune_join(first_stock.at, first_stock.length, second_stock.at, second_stock.length, first.at,
                                  first.length, second.at, second.length, start_of(&area), area.length, &numbers[0],
                                  &numbers[1], &numbers[2]);
    return answer;
}

static struct answer compare_in(struct bytes stock, struct bytes first, struct bytes second, size_t length,
                                size_t address_length)
{
    struct answer answer = no_answer();
    size_t *numbers = answer.numbers;
    lend(length, address_length);
    answer.refusal = caplune_compare(stock.at, stock.length, first.at, first.length, second.at, second.length,
                                     start_of(&area), area.length, start_of(&address_area), address_area.length,
                                     &numbers[0], &numbers[1], &numbers[2], &numbers[3], &numbers[4]);
    return answer;
}

static struct answer compare(struct bytes stock, struct bytes first, struct bytes second)
{
    return compare_in(stock, first, second, CAPLUNE_DESIGN_AREA, CAPLUNE_PLACE_AREA);
}

/* The file, start and size that caplune_shorter gives; it returns no refusal. */
static struct answer shorter(struct bytes first, struct bytes second)
{
    struct answer answer = no_answer();
    size_t *numbers = answer.numbers;
    lend(0, 0);
    numbers[0] = caplune_shorter(S.at, S.length, first.at, first.length, second.at, second.length, &numbers[1],
                                 &numbers[2]);
    return answer;
}

static struct answer write_codes(size_t length)
{
    struct answer answer = no_answer();
    lend(length, 0);
    answer.refusal = caplune_write_codes(start_of(&area), area.length);
    return answer;
}

static struct answer write_xml(struct bytes stock, struct bytes tree, size_t length)
{
    struct answer answer = no_answer();
    lend(length, 0);
    answer.refusal = caplune_write_xml(stock.at, stock.length, tree.at, tree.length, start_of(&area), area.length,
                                       &answer.numbers[0]);
    return answer;
}

static struct answer read_xml(struct bytes stock, struct bytes text, size_t length)
{
    struct answer answer = no_answer();
    lend(length, 0);
    answer.refusal = caplune_read_xml(stock.at, stock.length, text.at, text.length, start_of(&area), area.length,
                                      &answer.numbers[0]);
    return answer;
}

/* Files of any size, each in memory of its own. */

static void append(struct bytes *file, uint8_t *memory, struct bytes part)
{
    memcpy(memory + file->length, part.at, part.length);
    file->length += part.length;
}

/* A ring of states with the right-hand sides of T', each calling the next. */
static struct bytes ring(uint8_t states)
{
    static uint8_t memory[CAPLUNE_LONGEST_SHEET];
    struct bytes file = {memory, 0};
    append(&file, memory, BYTES(states, 0, 1));
    for (uint8_t state = 0; state < states; state++)
        append(&file, memory, BYTES(0, 3, 0, 3));
    append(&file, memory, BYTES(1, 0));
    for (uint8_t state = 0; state < states; state++) {
        uint8_t next = (uint8_t)((state + 1) % states);
        append(&file, memory, BYTES(0, 0, 1, next, 1, next, 0, 0, 0, 1, 0, 1));
    }
    return file;
}

/* An initial term of so many calls of the state of T', joined by f. */
static struct bytes open_ends(uint8_t calls)
{
    static uint8_t memory[CAPLUNE_LONGEST_SHEET];
    struct bytes file = {memory, 0};
    append(&file, memory, BYTES(1, 0, (uint8_t)(2 * calls - 1), 0, 3, 0, 3));
    for (uint8_t call = 1; call < calls; call++)
        append(&file, memory, BYTES(0, 0, 1, 0));
    append(&file, memory, BYTES(1, 0, 0, 0, 1, 0, 1, 0, 0, 0, 0, 1, 0, 1));
    return file;
}

/* a over a over ... over e, of so many levels. */
static struct bytes chain(size_t levels)
{
    static uint8_t memory[5000];
    memset(memory, 0, levels - 1);
    memory[levels - 1] = 1;
    return (struct bytes){memory, levels};
}

/* So many input symbols and output symbols, all of rank 0. */
static struct bytes leaves(uint8_t inputs, uint8_t outputs)
{
    static uint8_t memory[100];
    memset(memory, 0, sizeof memory);
    memory[0] = inputs;
    memory[1 + inputs] = outputs;
    return (struct bytes){memory, (size_t)2 + inputs + outputs};
}

/* The file that a call wrote, numbers[2] being its length, kept past the next call; nothing if it was refused. */
static struct bytes keep(struct answer answer)
{
    static uint8_t memory[LONGEST_AREA];
    bool written = answer.refusal == CAPLUNE_OK && answer.numbers[2] <= area.length;
    size_t length = written ? answer.numbers[2] : 0;
    memcpy(memory, start_of(&area), length);
    return (struct bytes){memory, length};
}

/* The samples. */

static void reading(void)
{
    check("stock S: 2 part kinds, 2 block kinds", gives(read_alphabets(S), NUMBERS(2, 2)));
    check("the longest stock", leaves(16, 64).length == CAPLUNE_LONGEST_STOCK &&
                                   gives(read_alphabets(leaves(16, 64)), NUMBERS(16, 64)));
    check("stock of 17 part kinds: 2", refuses(read_alphabets(leaves(17, 64)), CAPLUNE_BAD_ALPHABETS));
    check("stock of 65 block kinds: 2", refuses(read_alphabets(leaves(16, 65)), CAPLUNE_BAD_ALPHABETS));
    check("row 2: stock 1 1 1 0", refuses(read_alphabets(NO_STOCK), CAPLUNE_BAD_ALPHABETS));
    check("the empty stock: 2", refuses(read_alphabets(NOTHING), CAPLUNE_BAD_ALPHABETS));
    check("design 0 1: 2 parts, 2 levels", gives(read_tree(S, BYTES(0, 1)), NUMBERS(2, 2)));
    check("design of three parts on two levels", gives(read_tree(PAIRS, BYTES(0, 1, 1)), NUMBERS(3, 2)));
    check("design of 512 levels", gives(read_tree(S, chain(512)), NUMBERS(512, 512)));
    check("design of 513 levels: 3", refuses(read_tree(S, chain(513)), CAPLUNE_BAD_TREE));
    check("row 3: design 0", refuses(read_tree(S, NO_TREE), CAPLUNE_BAD_TREE));
    check("a design: 2 before 3", refuses(read_tree(NO_STOCK, NO_TREE), CAPLUNE_BAD_ALPHABETS));
    check("T: 1 pass, 3 counts, 7 marks", gives(read_transducer(S, T), NUMBERS(1, 6, 14)));
    check("U: 1 pass, 3 counts, 9 marks", gives(read_transducer(S, U), NUMBERS(1, 6, 18)));
    check("M: 1 pass, 3 counts, 13 marks", gives(read_transducer(PAIRS, M), NUMBERS(1, 6, 26)));
    check("0 0 1 0 1: no pass, 1 count, 1 mark", gives(read_transducer(S, CONSTANT), NUMBERS(0, 2, 2)));
    check("row 4: sheet 1 0 3", refuses(read_transducer(S, NO_CONTENTS), CAPLUNE_BAD_CONTENTS));
    check("row 5: sheet 0 0 1 1 0", refuses(read_transducer(S, NO_BODY), CAPLUNE_BAD_BODY));
    check("a sheet: 2 before 4", refuses(read_transducer(NO_STOCK, NO_CONTENTS), CAPLUNE_BAD_ALPHABETS));
    check("T is not single", gives(is_linear(S, T), NUMBERS(0)));
    check("0 0 1 0 1 is single", gives(is_linear(S, CONSTANT), NUMBERS(1)));
    check("single: a pass that is not reached does not count", gives(is_linear(S, OLD_PASS), NUMBERS(1)));
    check("single: not reached, and calls itself", gives(is_linear(S, OLD_OWN), NUMBERS(1)));
    check("single: not reached, and calls a reached pass", gives(is_linear(S, OLD_CALLER), NUMBERS(1)));
    check("not single: reached through another pass", gives(is_linear(S, THROUGH), NUMBERS(0)));
    check("not single: reached by the second kind only", gives(is_linear(TWO, AT_SECOND), NUMBERS(0)));
    check("not single: the opening alone", gives(is_linear(S, OPENING_TWICE), NUMBERS(0)));
    check("single: the opening calls no pass", gives(is_linear(S, NOT_CALLED), NUMBERS(1)));
    check("single: 5 also where no pass is reached", refuses(is_linear(S, NOT_CALLED_BAD), CAPLUNE_BAD_BODY));
    check("single: 5", refuses(is_linear(S, NO_BODY), CAPLUNE_BAD_BODY));
}

/* Writes `file` from its parts, which start at the bytes 1 and `marks`. */
static struct answer write_parts(struct bytes file, size_t marks, size_t length)
{
    struct bytes first = {file.at + 1, marks - 1};
    struct bytes second = {file.at + marks, file.length - marks};
    return write_transducer(S, file.at[0], first, second, length);
}

static void writing(void)
{
    const size_t enough = CAPLUNE_LONGEST_SHEET;
    struct bytes counts = BYTES(0, 3, 0, 3, 0, 1);
    struct bytes marks = BYTES(0, 0, 1, 0, 1, 0, 0, 0, 1, 0, 1, 0, 0, 1);
    struct bytes two_counts = {counts.at, 4};
    struct bytes one_mark_less = {marks.at, marks.length - 2};
    struct bytes two_ends = BYTES(0, 0, 1, 0, 2, 0, 0, 0, 1, 0, 1, 0, 0, 1);
    check("writing T", writes(T, write_parts(T, 7, enough), NUMBERS(21)));
    check("writing T in a longer area", writes(T, write_parts(T, 7, enough + 1), NUMBERS(21)));
    check("writing T'", writes(T_PRIME, write_parts(T_PRIME, 7, enough), NUMBERS(21)));
    check("writing 0 0 1 0 1", writes(CONSTANT, write_parts(CONSTANT, 3, enough), NUMBERS(5)));
    check("row 1: written area of 20,482", refuses(write_parts(T, 7, enough - 1), CAPLUNE_SHORT_AREA));
    check("writing: 1 before 2",
          refuses(write_transducer(NO_STOCK, 1, counts, marks, enough - 1), CAPLUNE_SHORT_AREA));
    check("writing: 2 before 4",
          refuses(write_transducer(NO_STOCK, 2, counts, marks, enough), CAPLUNE_BAD_ALPHABETS));
    check("writing 2 passes with the counts of one: 4",
          refuses(write_transducer(S, 2, counts, marks, enough), CAPLUNE_BAD_CONTENTS));
    check("writing too few counts: 4",
          refuses(write_transducer(S, 1, two_counts, marks, enough), CAPLUNE_BAD_CONTENTS));
    check("writing too few marks: 4",
          refuses(write_transducer(S, 1, counts, one_mark_less, enough), CAPLUNE_BAD_CONTENTS));
    check("writing an opening with sub-part 2: 5",
          refuses(write_transducer(S, 1, counts, two_ends, enough), CAPLUNE_BAD_BODY));
}

/* The card of the 64 codes, a line a letter. */
static const char card[] = "A1A2A3A4A5A6A7A8"
                           "B1B2B3B4B5B6B7B8"
                           "C1C2C3C4C5C6C7C8"
                           "D1D2D3D4D5D6D7D8"
                           "E1E2E3E4E5E6E7E8"
                           "F1F2F3F4F5F6F7F8"
                           "G1G2G3G4G5G6G7G8"
                           "H1H2H3H4H5H6H7H8";

static void codes(void)
{
    const size_t enough = CAPLUNE_CODES_AREA;
    struct bytes all = {(const uint8_t *)card, sizeof card - 1};
    check("the codes of all blocks", writes(all, write_codes(enough), 0, NULL));
    check("the codes in a longer area", writes(all, write_codes(enough + 1), 0, NULL));
    check("the codes in an area of 127: 1", refuses(write_codes(enough - 1), CAPLUNE_SHORT_AREA));
    check("the codes in no area: 1", refuses(write_codes(0), CAPLUNE_SHORT_AREA));
}

/* Some text, without the byte 0 at its end. */
static struct bytes text(const char *characters)
{
    return (struct bytes){(const uint8_t *)characters, strlen(characters)};
}

/* The XML of chain(levels) where symbol 0 has rank 1. */
static struct bytes chain_text(size_t levels)
{
    static uint8_t memory[9 * 5000];
    struct bytes all = {memory, 0};
    for (size_t level = 1; level < levels; level++)
        append(&all, memory, text("<A1>"));
    append(&all, memory, text("<A2/>"));
    for (size_t level = 1; level < levels; level++)
        append(&all, memory, text("</A1>"));
    return all;
}

/* One output symbol of rank 0 by itself, written and read; and the symbol past the alphabet, of this code. */
static bool codes_as_xml(struct bytes stock, uint8_t symbol, const char *xml, const char *past)
{
    return writes(text(xml), write_xml(stock, BYTES(symbol), 5), NUMBERS(5)) &&
           writes(BYTES(symbol), read_xml(stock, text(xml), 1), NUMBERS(1)) &&
           refuses(write_xml(stock, BYTES((uint8_t)(symbol + 1)), 5), CAPLUNE_BAD_OUTPUT) &&
           refuses(read_xml(stock, text(past), 1), CAPLUNE_BAD_OUTPUT);
}

static void writing_xml(void)
{
    const size_t enough = CAPLUNE_LONGEST_XML;
    struct bytes tree = BYTES(0, 1, 1), xml = text("<A1><A2/><A2/></A1>");
    check("f(e, e) as XML", writes(xml, write_xml(S, tree, enough), NUMBERS(19)));
    check("f(e, e) as XML in a longer area", writes(xml, write_xml(S, tree, enough + 1), NUMBERS(19)));
    check("f(e, e) as XML: area 19 is enough", writes(xml, write_xml(S, tree, 19), NUMBERS(19)));
    check("row 12: f(e, e) as XML, area 18", refuses(write_xml(S, tree, 18), CAPLUNE_SHORT_TARGET));
    check("f(e, e) as XML in no area: 12", refuses(write_xml(S, tree, 0), CAPLUNE_SHORT_TARGET));
    check("e as XML", writes(text("<A2/>"), write_xml(S, BYTES(1), 5), NUMBERS(5)));
    check("row 11: no plan as XML", refuses(write_xml(S, NOTHING, enough), CAPLUNE_BAD_OUTPUT));
    check("f with one sub-tree as XML: 11", refuses(write_xml(S, BYTES(0, 1), enough), CAPLUNE_BAD_OUTPUT));
    check("f with three sub-trees as XML: 11", refuses(write_xml(S, BYTES(0, 1, 1, 1), enough), CAPLUNE_BAD_OUTPUT));
    check("a block that S does not have as XML: 11", refuses(write_xml(S, BYTES(2), enough), CAPLUNE_BAD_OUTPUT));
    check("writing XML: 2 before 11", refuses(write_xml(NO_STOCK, NOTHING, 0), CAPLUNE_BAD_ALPHABETS));
    check("writing XML: 11 before 12", refuses(write_xml(S, BYTES(0, 1), 0), CAPLUNE_BAD_OUTPUT));
    check("4,096 levels as XML, 36,860 bytes",
          chain_text(CAPLUNE_MOST_XML_SYMBOLS).length == enough &&
              writes(chain_text(4096), write_xml(UNARY, chain(4096), enough), NUMBERS(36860)));
    check("4,096 levels as XML, area 36,859: 12",
          refuses(write_xml(UNARY, chain(4096), enough - 1), CAPLUNE_SHORT_TARGET));
    check("4,097 blocks as XML: 11", refuses(write_xml(UNARY, chain(4097), enough + 1), CAPLUNE_BAD_OUTPUT));
}

static void reading_xml(void)
{
    const size_t enough = CAPLUNE_MOST_XML_SYMBOLS;
    struct bytes tree = BYTES(0, 1, 1), xml = text("<A1><A2/><A2/></A1>");
    check("f(e, e) from XML", writes(tree, read_xml(S, xml, enough), NUMBERS(3)));
    check("f(e, e) from XML in a longer area", writes(tree, read_xml(S, xml, enough + 1), NUMBERS(3)));
    check("f(e, e) from XML: area 3 is enough", writes(tree, read_xml(S, xml, 3), NUMBERS(3)));
    check("f(e, e) from XML, area 2: 12", refuses(read_xml(S, xml, 2), CAPLUNE_SHORT_TARGET));
    check("f(e, e) from XML in no area: 12", refuses(read_xml(S, xml, 0), CAPLUNE_SHORT_TARGET));
    check("e from XML", writes(BYTES(1), read_xml(S, text("<A2/>"), 1), NUMBERS(1)));
    check("reading XML: 2 before 11", refuses(read_xml(NO_STOCK, NOTHING, 0), CAPLUNE_BAD_ALPHABETS));
    check("reading XML: 11 before 12", refuses(read_xml(S, text("<A1/>"), 0), CAPLUNE_BAD_OUTPUT));
    check("4,096 levels from XML",
          writes(chain(4096), read_xml(UNARY, chain_text(4096), enough), NUMBERS(4096)));
    check("4,096 levels from XML, area 4,095: 12",
          refuses(read_xml(UNARY, chain_text(4096), enough - 1), CAPLUNE_SHORT_TARGET));
    check("4,097 blocks from XML: 11", refuses(read_xml(UNARY, chain_text(4097), enough + 1), CAPLUNE_BAD_OUTPUT));
    check("XML: the only code of one block kind", codes_as_xml(leaves(1, 1), 0, "<A1/>", "<A2/>"));
    check("XML: the last code of 63 block kinds", codes_as_xml(leaves(1, 63), 62, "<H7/>", "<H8/>"));
    check("XML: the last code of all", codes_as_xml(leaves(1, 64), 63, "<H8/>", "<I1/>"));
}

/* Texts that are not just as they are written. */
static void wrong_xml(void)
{
    static const struct {
        const char *name, *xml;
    } wrong[] = {
        {"no text: 11", ""},
        {"e as two tags: 11", "<A2></A2>"},
        {"f as one tag: 11", "<A1/>"},
        {"f without sub-trees: 11", "<A1></A1>"},
        {"f with one sub-tree from XML: 11", "<A1><A2/></A1>"},
        {"f with three sub-trees from XML: 11", "<A1><A2/><A2/><A2/></A1>"},
        {"the end of another block: 11", "<A1><A2/><A2/></A2>"},
        {"no end: 11", "<A1><A2/><A2/>"},
        {"a code that S does not have: 11", "<A3/>"},
        {"a small letter: 11", "<a2/>"},
        {"a space before: 11", " <A2/>"},
        {"a space behind: 11", "<A2/> "},
        {"a space between: 11", "<A1><A2/> <A2/></A1>"},
        {"a space in a tag: 11", "<A2 />"},
        {"a line end: 11", "<A2/>\n"},
        {"a second plan: 11", "<A2/><A2/>"},
        {"a declaration: 11", "<?xml version=\"1.0\"?><A2/>"},
    };
    for (size_t index = 0; index < sizeof wrong / sizeof *wrong; index++)
        check(wrong[index].name, refuses(read_xml(S, text(wrong[index].xml), 100), CAPLUNE_BAD_OUTPUT));
}

static void translating(void)
{
    struct bytes seven = BYTES(0, 0, 1, 1, 0, 1, 1);
    check("T on 1 gives 0 1 1", writes(BYTES(0, 1, 1), translate(S, T, BYTES(1), 100), NUMBERS(3)));
    check("T on 0 1 gives 0 0 1 1 0 1 1", writes(seven, translate(S, T, BYTES(0, 1), 100), NUMBERS(7)));
    check("T on 0 1: area 7 is enough", writes(seven, translate(S, T, BYTES(0, 1), 7), NUMBERS(7)));
    check("row 6: T on 0 1, area 6", refuses(translate(S, T, BYTES(0, 1), 6), CAPLUNE_LONG_OUTPUT));
    check("T' on 0 1 gives the same", writes(seven, translate(S, T_PRIME, BYTES(0, 1), 7), NUMBERS(7)));
    check("0 0 1 0 1 on 0 0 1 gives 1", writes(BYTES(1), translate(S, CONSTANT, BYTES(0, 0, 1), 1), NUMBERS(1)));
    check("T on 512 levels: 6", refuses(translate(S, T, chain(512), LONGEST_AREA), CAPLUNE_LONG_OUTPUT));
    check("sewing: 2 before 4", refuses(translate(NO_STOCK, NO_CONTENTS, NO_TREE, 0), CAPLUNE_BAD_ALPHABETS));
    check("sewing: 4 before 3", refuses(translate(S, NO_CONTENTS, NO_TREE, 0), CAPLUNE_BAD_CONTENTS));
    check("sewing: 5 before 3", refuses(translate(S, NO_BODY, NO_TREE, 0), CAPLUNE_BAD_BODY));
    check("sewing: 3 before 6", refuses(translate(S, T, NO_TREE, 0), CAPLUNE_BAD_TREE));
    check("a copy of 256 levels", writes(chain(256), translate(UNARY, COPY, chain(256), 256), NUMBERS(256)));
    check("a copy of 256 levels in a longer area",
          writes(chain(256), translate(UNARY, COPY, chain(256), LONGEST_AREA), NUMBERS(256)));
    check("row 10: a copy of 257 levels", refuses(translate(UNARY, COPY, chain(257), 257), CAPLUNE_DEEP_OUTPUT));
    check("a copy of 257 levels in a longer area: 10",
          refuses(translate(UNARY, COPY, chain(257), LONGEST_AREA), CAPLUNE_DEEP_OUTPUT));
    check("a copy of 512 levels: 10", refuses(translate(UNARY, COPY, chain(512), 512), CAPLUNE_DEEP_OUTPUT));
    check("sewing: 6 before 10", refuses(translate(UNARY, COPY, chain(257), 256), CAPLUNE_LONG_OUTPUT));
    check("0 0 1 0 1 on 512 levels gives 1", writes(BYTES(1), translate(S, CONSTANT, chain(512), 1), NUMBERS(1)));
}

static void places(void)
{
    static uint8_t first[511], second[513];
    struct bytes two = BYTES(0, 1);
    memset(first, 1, sizeof first);
    memset(second, 2, sizeof second);
    check("T on 0 1 at the top: f", gives(symbol_at(S, T, two, NOTHING), NUMBERS(1, 0)));
    check("T on 0 1 at 2.1: e", gives(symbol_at(S, T, two, BYTES(2, 1)), NUMBERS(1, 1)));
    check("T on 0 1 at 2.1.1: no such place", gives(symbol_at(S, T, two, BYTES(2, 1, 1)), NUMBERS(0)));
    check("T on 0 1 at 0: no such place", gives(symbol_at(S, T, two, BYTES(0)), NUMBERS(0)));
    check("T on 0 1 at 5: no such place", gives(symbol_at(S, T, two, BYTES(5)), NUMBERS(0)));
    check("T on 1 at 1: e", gives(symbol_at(S, T, BYTES(1), BYTES(1)), NUMBERS(1, 1)));
    check("U on 1 at 1: f", gives(symbol_at(S, U, BYTES(1), BYTES(1)), NUMBERS(1, 0)));
    check("T on 512 levels, 512 down: e",
          gives(symbol_at(S, T, chain(512), (struct bytes){second, 512}), NUMBERS(1, 1)));
    check("T on 512 levels, 513 down: no such place",
          gives(symbol_at(S, T, chain(512), (struct bytes){second, 513}), NUMBERS(0)));
    check("a copy of 512 levels, 511 down: c",
          gives(symbol_at(UNARY, COPY, chain(512), (struct bytes){first, 511}), NUMBERS(1, 1)));
    check("a place: 4 before 3", refuses(symbol_at(S, NO_CONTENTS, NO_TREE, NOTHING), CAPLUNE_BAD_CONTENTS));
    check("a place: 3", refuses(symbol_at(S, T, NO_TREE, NOTHING), CAPLUNE_BAD_TREE));
}

/* Whether the call wrote `form`, a file of so many states and marks; two input symbols, or no states. */
static bool sized(struct bytes stock, struct bytes form, struct answer answer, size_t states, size_t marks)
{
    size_t counts = 2 * (1 + 2 * states);
    return writes(form, answer, NUMBERS(states, marks, 1 + counts + 2 * marks)) &&
           gives(read_transducer(stock, form), NUMBERS(states, counts, 2 * marks));
}

/* Whether the normal form has so many states and marks, and is its own normal form. */
static bool cleans_to_size(struct bytes stock, struct bytes file, size_t states, size_t marks)
{
    struct answer answer = clean(stock, file, CAPLUNE_LONGEST_SHEET);
    struct bytes form = keep(answer);
    return sized(stock, form, answer, states, marks) &&
           writes(form, clean(stock, form, CAPLUNE_LONGEST_SHEET), 3, answer.numbers);
}

/* Whether the earliest form has so many states and marks, and so many marks in its initial term. */
static bool trims_to_size(struct bytes stock, struct bytes file, size_t states, size_t marks, size_t initial)
{
    struct answer answer = earliest_form(stock, file, CAPLUNE_LONGEST_SHEET);
    struct bytes form = keep(answer);
    return sized(stock, form, answer, states, marks) && form.at[1] == 0 && form.at[2] == initial;
}

/* Whether the initial term of the earliest form of M is the largest common prefix, d(d(o, o), d(o, e)). */
static bool prefix_of_m(void)
{
    struct bytes prefix = BYTES(0, 0, 0, 0, 1, 0, 1, 1, 0, 0, 1, 2, 0, 1);
    struct answer answer = earliest_form(PAIRS, M, CAPLUNE_LONGEST_SHEET);
    struct bytes form = keep(answer);
    return sized(PAIRS, form, answer, 3, 23) && form.at[2] == 7 && memcmp(form.at + 15, prefix.at, prefix.length) == 0;
}

static void cleaning(void)
{
    const size_t enough = CAPLUNE_LONGEST_SHEET;
    check("T cleans to itself", writes(T, clean(S, T, enough), NUMBERS(1, 7, 21)));
    check("T cleans to itself in a longer area", writes(T, clean(S, T, enough + 1), NUMBERS(1, 7, 21)));
    check("T' cleans to T", writes(T, clean(S, T_PRIME, enough), NUMBERS(1, 7, 21)));
    check("T' has 2 trimmed passes", trims_to_size(S, T_PRIME, 2, 11, 3));
    check("clean U: 1 pass, 11 marks", cleans_to_size(S, U, 1, 11));
    check("clean M: 3 passes, 23 marks", cleans_to_size(PAIRS, M, 3, 23));
    check("the head of M", prefix_of_m());
    check("0 0 1 0 1 cleans to itself", writes(CONSTANT, clean(S, CONSTANT, enough), NUMBERS(0, 1, 5)));
    check("16 open ends: 63 trimmed marks in the opening", trims_to_size(S, open_ends(16), 2, 71, 63));
    check("16 open ends are cleaned", cleans_to_size(S, open_ends(16), 1, 67));
    check("row 7: 17 open ends", refuses(clean(S, open_ends(17), enough), CAPLUNE_OVER_LIMITS));
    check("17 open ends, trimmed: 7", refuses(earliest_form(S, open_ends(17), enough), CAPLUNE_OVER_LIMITS));
    check("a ring of 64 passes: 128 trimmed", trims_to_size(S, ring(64), 128, 515, 3));
    check("a ring of 64 passes cleans to T", writes(T, clean(S, ring(64), enough), NUMBERS(1, 7, 21)));
    check("a ring of 65 passes: 7", refuses(clean(S, ring(65), enough), CAPLUNE_OVER_LIMITS));
    check("a ring of 65 passes, trimmed: 7", refuses(earliest_form(S, ring(65), enough), CAPLUNE_OVER_LIMITS));
    check("row 1: clean area of 20,482", refuses(clean(S, T, enough - 1), CAPLUNE_SHORT_AREA));
    check("row 1: trimmed area of 20,482", refuses(earliest_form(S, T, enough - 1), CAPLUNE_SHORT_AREA));
    check("cleaning: 1 before 2", refuses(clean(NO_STOCK, NO_CONTENTS, enough - 1), CAPLUNE_SHORT_AREA));
    check("cleaning: 2 before 4", refuses(clean(NO_STOCK, NO_CONTENTS, enough), CAPLUNE_BAD_ALPHABETS));
    check("cleaning: 4", refuses(clean(S, NO_CONTENTS, enough), CAPLUNE_BAD_CONTENTS));
    check("cleaning: 5", refuses(clean(S, NO_BODY, enough), CAPLUNE_BAD_BODY));
    check("trimming: 2 before 4", refuses(earliest_form(NO_STOCK, NO_CONTENTS, enough), CAPLUNE_BAD_ALPHABETS));
    check("trimming: 5", refuses(earliest_form(S, NO_BODY, enough), CAPLUNE_BAD_BODY));
}

static void comparing(void)
{
    const size_t enough = CAPLUNE_DESIGN_AREA, place = CAPLUNE_PLACE_AREA;
    check("T and T' are alike", gives(compare(S, T, T_PRIME), NUMBERS(1)));
    check("T and a ring of 64 passes are alike", gives(compare(S, T, ring(64)), NUMBERS(1)));
    check("T and U differ: design 1, place 1, e and f",
          shows(compare(S, T, U), NUMBERS(0, 1, 1, 1, 0), BYTES(1), BYTES(1)));
    check("U and T differ: design 1, place 1, f and e",
          shows(compare(S, U, T), NUMBERS(0, 1, 1, 0, 1), BYTES(1), BYTES(1)));
    check("row 1: design area of 1,535", refuses(compare_in(S, T, U, enough - 1, place), CAPLUNE_SHORT_AREA));
    check("row 1: place area of 16,127", refuses(compare_in(S, T, U, enough, place - 1), CAPLUNE_SHORT_AREA));
    check("comparing: 1 before 2", refuses(compare_in(NO_STOCK, T, U, enough - 1, place), CAPLUNE_SHORT_AREA));
    check("comparing: 2 before 4", refuses(compare(NO_STOCK, NO_CONTENTS, T), CAPLUNE_BAD_ALPHABETS));
    check("comparing: the first's 5 before the second's 4",
          refuses(compare(S, NO_BODY, NO_CONTENTS), CAPLUNE_BAD_BODY));
    check("comparing: the second's 4 before the first's 7",
          refuses(compare(S, open_ends(17), NO_CONTENTS), CAPLUNE_BAD_CONTENTS));
    check("comparing: the second's 5", refuses(compare(S, T, NO_BODY), CAPLUNE_BAD_BODY));
    check("comparing: the first's 7", refuses(compare(S, ring(65), T), CAPLUNE_OVER_LIMITS));
    check("comparing: the second's 7", refuses(compare(S, T, ring(65)), CAPLUNE_OVER_LIMITS));
}

static void shorter_of_two(void)
{
    struct answer answer = clean(S, open_ends(16), CAPLUNE_LONGEST_SHEET);
    struct bytes longer = keep(answer);
    check("the shorter of T and T': the first on a tie", gives(shorter(T, T_PRIME), NUMBERS(1, 7, 14)));
    check("the shorter is the second", gives(shorter(longer, open_ends(16)), NUMBERS(2, 7, 74)));
    check("the shorter is the first", gives(shorter(open_ends(16), longer), NUMBERS(1, 7, 74)));
    check("the shorter of T and U: an empty part", gives(shorter(T, U), NUMBERS(0, 0, 0)));
    check("the shorter on 4: an empty part", gives(shorter(T, NO_CONTENTS), NUMBERS(0, 0, 0)));
    check("the shorter on 7: an empty part", gives(shorter(ring(65), T), NUMBERS(0, 0, 0)));
}

static void joining(void)
{
    const size_t enough = CAPLUNE_LONGEST_SHEET;
    struct bytes unary = BYTES(1, 0, 2, 1, 0);
    struct bytes four = BYTES(0, 0, 5, 0, 0, 0, 0, 0, 0, 0, 0, 0, 1);
    struct bytes five = BYTES(0, 0, 6, 0, 0, 0, 0, 0, 0, 0, 0, 0, 0, 0, 1);
    struct answer answer = join(unary, S, four, T, enough);
    check("joining a chain of 4 blocks with T: 63 marks",
          sized(BYTES(1, 0, 2, 2, 0), keep(answer), answer, 0, 63));
    check("joining T' with a sheet gives U", writes(U, join(S, PAIRS, T_PRIME, DOUBLE, enough), NUMBERS(1, 9, 25)));
    check("row 17: a chain of 5 blocks, then T", refuses(join(unary, S, five, T, enough), CAPLUNE_JOIN_OVER_LIMITS));
    check("row 16: two sheets under S and S", refuses(join(S, S, T_PRIME, T, enough), CAPLUNE_OTHER_ALPHABET));
    check("row 1: joined area of 20,482", refuses(join(S, PAIRS, T_PRIME, DOUBLE, enough - 1), CAPLUNE_SHORT_AREA));
    check("joining: 1 before 2", refuses(join(NO_STOCK, S, T, T, enough - 1), CAPLUNE_SHORT_AREA));
    check("joining: the first stock's 2", refuses(join(NO_STOCK, S, T, T, enough), CAPLUNE_BAD_ALPHABETS));
    check("joining: the second stock's 2", refuses(join(S, NO_STOCK, T, T, enough), CAPLUNE_BAD_ALPHABETS));
    check("joining: 16 before 4", refuses(join(S, S, NO_CONTENTS, T, enough), CAPLUNE_OTHER_ALPHABET));
    check("joining: the first's 5 before the second's 4",
          refuses(join(S, PAIRS, NO_BODY, NO_CONTENTS, enough), CAPLUNE_BAD_BODY));
    check("joining: the first's 4 before the second's 5",
          refuses(join(S, PAIRS, NO_CONTENTS, NO_BODY, enough), CAPLUNE_BAD_CONTENTS));
    check("joining: the second's 4", refuses(join(S, PAIRS, T, NO_CONTENTS, enough), CAPLUNE_BAD_CONTENTS));
    check("joining: the second's 5", refuses(join(S, PAIRS, T, NO_BODY, enough), CAPLUNE_BAD_BODY));
}

/* A registry, with a record more than it has, and an area in the middle of bytes that have to stay. */
enum { LONGEST_BOOK = 300 };
struct book {
    struct caplune_head head;
    struct caplune_record records[CAPLUNE_RECORDS + 1];
    size_t length;
    uint8_t all[AROUND + LONGEST_BOOK + AROUND];
};

/* What no registry holds, and an area of this length. */
static struct book no_book(size_t length)
{
    struct book book = {.head = {.held = 77, .used = 78, .answered = 79}, .length = length};
    for (size_t index = 0; index <= CAPLUNE_RECORDS; index++)
        book.records[index] =
            (struct caplune_record){.start = 1000 + index, .size = 2000 + index, .count = UINT64_MAX - index};
    fill(book.all, sizeof book.all);
    return book;
}

static bool same(const struct book *first, const struct book *second)
{
    for (size_t index = 0; index <= CAPLUNE_RECORDS; index++)
        if (first->records[index].start != second->records[index].start ||
            first->records[index].size != second->records[index].size ||
            first->records[index].count != second->records[index].count)
            return false;
    return first->head.held == second->head.held && first->head.used == second->head.used &&
           first->head.answered == second->head.answered && memcmp(first->all, second->all, sizeof first->all) == 0;
}

/* Writes a file into the book that is expected, as the next record; not one that has no room, which is an error. */
static void expect(struct book *book, size_t record, struct bytes file)
{
    if (file.length > book->length - book->head.used)
        return;
    book->records[record] = (struct caplune_record){.start = book->head.used, .size = file.length, .count = 0};
    memcpy(book->all + AROUND + book->head.used, file.at, file.length);
    book->head.held = record;
    book->head.used += file.length;
}

/* Counts an answer with this number in the book that is expected. */
static void expect_answer(struct book *book, size_t number)
{
    book->head.answered++;
    book->records[number].count++;
}

/* The book of this length that holds the alphabets alone. */
static struct book expected_book(size_t length, struct bytes stock)
{
    struct book book = no_book(length);
    for (size_t index = 0; index < CAPLUNE_RECORDS; index++)
        book.records[index] = (struct caplune_record){.start = 0, .size = 0, .count = 0};
    book.head = (struct caplune_head){.held = 0, .used = 0, .answered = 0};
    expect(&book, 0, stock);
    return book;
}

static struct answer make(struct book *book, size_t records, struct bytes stock)
{
    struct answer answer = no_answer();
    lend(0, 0);
    answer.refusal = caplune_make_registry(&book->head, book->records, records, book->all + AROUND, book->length,
                                           stock.at, stock.length);
    return answer;
}

static struct answer enter(struct book *book, size_t records, struct bytes file)
{
    struct answer answer = no_answer();
    lend(0, 0);
    answer.refusal = caplune_enter(&book->head, book->records, records, book->all + AROUND, book->length, file.at,
                                   file.length, &answer.numbers[0]);
    return answer;
}

/* The number and the size that caplune_question gives; the file goes to the area, of this length. */
static struct answer question(const struct book *book, size_t records, struct bytes file, size_t length)
{
    struct answer answer = no_answer();
    lend(length, 0);
    answer.refusal = caplune_question(&book->head, book->records, records, book->all + AROUND, book->length, file.at,
                                      file.length, start_of(&area), area.length, &answer.numbers[0],
                                      &answer.numbers[1]);
    return answer;
}

static struct answer commit(struct book *book, size_t records, struct bytes file, size_t claim)
{
    struct answer answer = no_answer();
    lend(0, 0);
    answer.refusal = caplune_commit(&book->head, book->records, records, book->all + AROUND, book->length, file.at,
                                    file.length, claim, &answer.numbers[0]);
    return answer;
}

/* The size and the start that caplune_body gives; it returns no refusal. */
static struct answer body(const struct book *book, size_t records, size_t number)
{
    struct answer answer = no_answer();
    lend(0, 0);
    answer.numbers[0] = caplune_body(&book->head, book->records, records, book->all + AROUND, book->length, number,
                                     &answer.numbers[1]);
    return answer;
}

/* A sample by itself: the book of this length that is made, whatever stood there. */
static struct book book_of(const char *name, size_t length, struct bytes stock)
{
    struct book book = no_book(length), expected = expected_book(length, stock);
    check(name, gives(make(&book, CAPLUNE_RECORDS + 1, stock), 0, NULL) && same(&book, &expected));
    return book;
}

/* Whether this entry is answered with `number`, and leaves `expected`. */
static bool enters(struct book *book, struct bytes file, size_t number, const struct book *expected)
{
    return gives(enter(book, CAPLUNE_RECORDS, file), NUMBERS(number)) && same(book, expected);
}

/* Whether a question is answered with `number` and the normal form `form`, and leaves the book. */
static bool asks(const struct book *book, struct bytes file, size_t number, struct bytes form)
{
    struct book before = *book;
    return writes(form, question(book, CAPLUNE_RECORDS, file, CAPLUNE_LONGEST_SHEET), NUMBERS(number, form.length)) &&
           same(book, &before);
}

/* Whether this commit is accepted with its claim, and leaves `expected`. */
static bool commits(struct book *book, struct bytes file, size_t claim, const struct book *expected)
{
    return gives(commit(book, CAPLUNE_RECORDS, file, claim), NUMBERS(claim)) && same(book, expected);
}

/* Whether making is refused by this number, and leaves all. */
static bool refuses_making(size_t length, size_t records, struct bytes stock, uint32_t refusal)
{
    struct book book = no_book(length), before = book;
    return refuses(make(&book, records, stock), refusal) && same(&book, &before);
}

/* Whether an entry is refused by this number, and leaves all. */
static bool refuses_entry(struct book book, size_t records, struct bytes file, uint32_t refusal)
{
    struct book before = book;
    return refuses(enter(&book, records, file), refusal) && same(&book, &before);
}

/* Whether a question with an area of this length is refused by this number, and leaves all. */
static bool refuses_question(struct book book, size_t records, struct bytes file, size_t length, uint32_t refusal)
{
    struct book before = book;
    return refuses(question(&book, records, file, length), refusal) && same(&book, &before);
}

/* Whether a commit is refused by this number, and leaves all. */
static bool refuses_commit(struct book book, size_t records, struct bytes file, size_t claim, uint32_t refusal)
{
    struct book before = book;
    return refuses(commit(&book, records, file, claim), refusal) && same(&book, &before);
}

/* Claims that are no number of a book, and such as are `number` in fewer bits. */
static const size_t other_claims[] = {0, 33, 255, SIZE_MAX - 1, SIZE_MAX};
static const unsigned bits[] = {8, 16, sizeof(size_t) * 4, sizeof(size_t) * 8 - 1};

/* Whether commits of this file with all claims but `number` are refused by this number, and leave all. */
static bool refuses_other_claims(struct book book, struct bytes file, size_t number, uint32_t refusal)
{
    bool refused = true;
    for (size_t index = 0; index < sizeof other_claims / sizeof *other_claims; index++)
        refused = refuses_commit(book, CAPLUNE_RECORDS, file, other_claims[index], refusal) && refused;
    for (size_t index = 0; index < sizeof bits / sizeof *bits; index++)
        refused =
            refuses_commit(book, CAPLUNE_RECORDS, file, number + ((size_t)1 << bits[index]), refusal) && refused;
    for (size_t claim = 1; claim <= CAPLUNE_RECORDS; claim++)
        refused = (claim == number || refuses_commit(book, CAPLUNE_RECORDS, file, claim, refusal)) && refused;
    return refused;
}

/* Whether a question of this file and its commits, with any claim, are refused by this number, and leave all. */
static bool refuses_asking(struct book book, size_t records, struct bytes file, uint32_t refusal)
{
    return refuses_question(book, records, file, CAPLUNE_LONGEST_SHEET, refusal) &&
           refuses_commit(book, records, file, 1, refusal) && refuses_commit(book, records, file, 2, refusal) &&
           refuses_commit(book, records, file, 0, refusal) && refuses_commit(book, records, file, SIZE_MAX, refusal);
}

/* Whether a book with wrong counts is refused by 9, before 4, and leaves all, and its bodies are empty. */
static bool refuses_counts(struct book book)
{
    return refuses_entry(book, CAPLUNE_RECORDS, T, CAPLUNE_BAD_REGISTRY) &&
           refuses_entry(book, CAPLUNE_RECORDS, NO_CONTENTS, CAPLUNE_BAD_REGISTRY) &&
           refuses_asking(book, CAPLUNE_RECORDS, T, CAPLUNE_BAD_REGISTRY) &&
           refuses_asking(book, CAPLUNE_RECORDS, NO_CONTENTS, CAPLUNE_BAD_REGISTRY) &&
           gives(body(&book, CAPLUNE_RECORDS, 1), NUMBERS(0, 0)) &&
           gives(body(&book, CAPLUNE_RECORDS, 2), NUMBERS(0, 0));
}

/* The counts of a book that holds T and U, and answered twice with 1 and once with 2. */
static void counts(struct book book)
{
    const uint64_t half = (uint64_t)1 << 63;
    struct book other = book, expected;

    other.records[0].count = 1;
    check("a count in record 0: 9", refuses_counts(other));
    other.head.answered++;
    check("a count in record 0 that fits the answers: 9", refuses_counts(other));
    other = book;
    other.records[3].count = 1;
    check("a count in an unused record: 9", refuses_counts(other));
    other.head.answered++;
    check("a count in an unused record that fits the answers: 9", refuses_counts(other));
    other = book;
    other.records[CAPLUNE_RECORDS - 1].count = other.records[2].count;
    other.records[2].count = 0;
    check("a count moved into the last record: 9", refuses_counts(other));
    other = book;
    other.records[1].count++;
    check("a sum that is one too high: 9", refuses_counts(other));
    other = book;
    other.records[2].count--;
    check("a sum that is one too low: 9", refuses_counts(other));
    other = book;
    other.records[1].count += half;
    other.records[2].count += half;
    check("two counts raised by half of all numbers each: 9", refuses_counts(other));
    other = book;
    other.head.answered = 0;
    other.records[1].count = UINT64_MAX;
    other.records[2].count = 1;
    check("a sum that goes round to 0: 9", refuses_counts(other));

    other = book;
    other.records[1].count = 0;
    other.records[2].count = 3;
    check("a body that is held with count 0", gives(body(&other, CAPLUNE_RECORDS, 1), NUMBERS(21, 6)));
    expected = other;
    expect_answer(&expected, 1);
    check("a held record with count 0 is no fault", enters(&other, T, 1, &expected));

    other = book;
    other.head.answered = UINT64_MAX - 1;
    other.records[1].count = half;
    other.records[2].count = half - 2;
    expected = other;
    expect_answer(&expected, 2);
    check("the last answer, behind counts in two records", enters(&other, U, 2, &expected));
    check("the answer after it: 9", refuses_counts(other));
}

static void books(void)
{
    struct answer answer = clean(S, U, CAPLUNE_LONGEST_SHEET);
    struct bytes clean_u = keep(answer);
    struct book book = book_of("making a book of area 60", 60, S), expected = expected_book(60, S);
    expect(&expected, 1, T);
    expect_answer(&expected, 1);
    check("book of area 60: T gets 1", enters(&book, T, 1, &expected));
    expect_answer(&expected, 1);
    check("book of area 60: T' gets 1", enters(&book, T_PRIME, 1, &expected));
    expect(&expected, 2, clean_u);
    expect_answer(&expected, 2);
    check("book of area 60: U gets 2", enters(&book, U, 2, &expected));
    check("book of area 60: 56 bytes used, 3 answered",
          book.head.held == 2 && book.head.used == 56 && book.head.answered == 3);
    check("book of area 60: 2 answered with 1, and 1 with 2",
          book.records[0].count == 0 && book.records[1].count == 2 && book.records[2].count == 1);
    counts(book);
    check("body 1 is T", gives(body(&book, CAPLUNE_RECORDS, 1), NUMBERS(21, 6)));
    check("body 2 is the clean U", gives(body(&book, CAPLUNE_RECORDS, 2), NUMBERS(29, 27)));
    check("body 0 is empty", gives(body(&book, CAPLUNE_RECORDS, 0), NUMBERS(0, 0)));
    check("body 3 is empty", gives(body(&book, CAPLUNE_RECORDS, 3), NUMBERS(0, 0)));
    check("a body of 32 records is empty", gives(body(&book, CAPLUNE_RECORDS - 1, 1), NUMBERS(0, 0)));
    check("bodies leave the book", same(&book, &expected));
    book.head.held = 33;
    check("row 9: a head saying 33 sheets", refuses_entry(book, CAPLUNE_RECORDS, T, CAPLUNE_BAD_REGISTRY));
    check("a body of a head saying 33 sheets is empty", gives(body(&book, CAPLUNE_RECORDS, 1), NUMBERS(0, 0)));
}

/* A sample of a book of this length. */
static void check_in(size_t length, const char *name, bool holds)
{
    char whole[100];
    snprintf(whole, sizeof whole, "book of area %zu: %s", length, name);
    check(whole, holds);
}

/* The book of this length in which T and T' were asked for and then committed. */
static struct book asked_book(size_t length)
{
    const size_t enough = CAPLUNE_LONGEST_SHEET, records = CAPLUNE_RECORDS;
    struct book book = expected_book(length, S), expected = book;
    check_in(length, "asking for T: 1", asks(&book, T, 1, T));
    check_in(length, "asking for T': 1 and T", asks(&book, T_PRIME, 1, T));
    check_in(length, "asking in a longer area",
             writes(T, question(&book, records, T_PRIME, enough + 1), NUMBERS(1, 21)) && same(&book, &expected));
    check_in(length, "row 1: asking in an area of 20,482",
             refuses_question(book, records, T, enough - 1, CAPLUNE_SHORT_AREA));
    check_in(length, "asking in no area: 1", refuses_question(book, records, T, 0, CAPLUNE_SHORT_AREA));
    check_in(length, "T with another number: 13", refuses_other_claims(book, T, 1, CAPLUNE_OTHER_NUMBER));
    expect(&expected, 1, T);
    expect_answer(&expected, 1);
    check_in(length, "T with 1", commits(&book, T, 1, &expected));
    check_in(length, "asking for T' that is held: 1 and T", asks(&book, T_PRIME, 1, T));
    check_in(length, "T' that is held with another number: 13",
             refuses_other_claims(book, T_PRIME, 1, CAPLUNE_OTHER_NUMBER));
    expect_answer(&expected, 1);
    check_in(length, "T' with 1", commits(&book, T_PRIME, 1, &expected));
    return book;
}

/* And then U, for which there is room. */
static void asked_with_room(size_t length)
{
    struct answer answer = clean(S, U, CAPLUNE_LONGEST_SHEET);
    struct bytes clean_u = keep(answer);
    struct book book = asked_book(length), expected = book;
    check_in(length, "asking for U: 2 and the clean U", asks(&book, U, 2, clean_u));
    check_in(length, "U with 1: 13", refuses_commit(book, CAPLUNE_RECORDS, U, 1, CAPLUNE_OTHER_NUMBER));
    check_in(length, "U with another number: 13", refuses_other_claims(book, U, 2, CAPLUNE_OTHER_NUMBER));
    expect(&expected, 2, clean_u);
    expect_answer(&expected, 2);
    check_in(length, "U with 2", commits(&book, U, 2, &expected));
    check_in(length, "56 bytes used, 3 answered", book.head.used == 56 && book.head.answered == 3);
}

/* And then U, for which there is none. */
static void asked_without_room(size_t length)
{
    struct book book = asked_book(length);
    check_in(length, "asking for U: 8", refuses_asking(book, CAPLUNE_RECORDS, U, CAPLUNE_FULL_REGISTRY));
    check_in(length, "U with 2: 8", refuses_commit(book, CAPLUNE_RECORDS, U, 2, CAPLUNE_FULL_REGISTRY));
    check_in(length, "U with another number: 8 before 13",
             refuses_other_claims(book, U, 2, CAPLUNE_FULL_REGISTRY));
}

/* An entry between a question and its commit, and calls that change nothing; last with a record more, which stays. */
static void numbers_taken(void)
{
    struct answer answer = clean(S, U, CAPLUNE_LONGEST_SHEET);
    struct bytes clean_u = keep(answer);
    struct book book = expected_book(60, S), expected = book;
    check("row 13: 0 0 1 0 1 with 2 into a new book",
          refuses_commit(book, CAPLUNE_RECORDS, CONSTANT, 2, CAPLUNE_OTHER_NUMBER));
    check("asking for U: 1", asks(&book, U, 1, clean_u));
    check("a refused entry between", refuses_entry(book, CAPLUNE_RECORDS, NO_BODY, CAPLUNE_BAD_BODY));
    check("a refused commit between", refuses_commit(book, CAPLUNE_RECORDS, T, 2, CAPLUNE_OTHER_NUMBER));
    expect(&expected, 1, T);
    expect_answer(&expected, 1);
    check("T is entered between and gets 1", enters(&book, T, 1, &expected));
    check("U with the number that T has: 13", refuses_commit(book, CAPLUNE_RECORDS, U, 1, CAPLUNE_OTHER_NUMBER));
    check("asking for U again, of 34 records: 2",
          writes(clean_u, question(&book, CAPLUNE_RECORDS + 1, U, CAPLUNE_LONGEST_SHEET), NUMBERS(2, 29)) &&
              same(&book, &expected));
    expect(&expected, 2, clean_u);
    expect_answer(&expected, 2);
    check("U with 2, of 34 records",
          gives(commit(&book, CAPLUNE_RECORDS + 1, U, 2), NUMBERS(2)) && same(&book, &expected));
}

/* What is refused, and in which order. */
static void refused_asking(void)
{
    struct book book = expected_book(26, S), bad = book;
    const size_t enough = CAPLUNE_LONGEST_SHEET, records = CAPLUNE_RECORDS;
    bad.head.held = 33;
    check("asking: 1 before 9", refuses_question(bad, records, T, enough - 1, CAPLUNE_SHORT_AREA));
    check("asking and committing: 9 before 4", refuses_asking(bad, records, NO_CONTENTS, CAPLUNE_BAD_REGISTRY));
    check("asking and committing with 32 records: 9", refuses_asking(book, records - 1, T, CAPLUNE_BAD_REGISTRY));
    check("asking and committing: 4", refuses_asking(book, records, NO_CONTENTS, CAPLUNE_BAD_CONTENTS));
    check("asking and committing: 5", refuses_asking(book, records, NO_BODY, CAPLUNE_BAD_BODY));
    check("asking and committing: 7 before 8", refuses_asking(book, records, open_ends(17), CAPLUNE_OVER_LIMITS));
    check("asking and committing, area 26: 8", refuses_asking(book, records, T, CAPLUNE_FULL_REGISTRY));
}

/* Before the last answer that can be counted, and after it. */
static void last_asked(void)
{
    struct book book = expected_book(55, S), expected;
    expect(&book, 1, T);
    book.head.answered = book.records[1].count = UINT64_MAX - 1;
    check("asking before the last answer", asks(&book, T_PRIME, 1, T));
    check("another number before the last answer: 13", refuses_other_claims(book, T, 1, CAPLUNE_OTHER_NUMBER));
    expected = book;
    expect_answer(&expected, 1);
    check("the last commit that can be counted", commits(&book, T_PRIME, 1, &expected));
    check("asking and committing after it: 9", refuses_asking(book, CAPLUNE_RECORDS, T, CAPLUNE_BAD_REGISTRY));
    check("asking after it in an area of 20,482: 1",
          refuses_question(book, CAPLUNE_RECORDS, T, CAPLUNE_LONGEST_SHEET - 1, CAPLUNE_SHORT_AREA));
}

static void short_books(void)
{
    struct book book = book_of("making a book of area 55", 55, S), expected = expected_book(55, S);
    expect(&expected, 1, T);
    expect_answer(&expected, 1);
    check("book of area 55: T gets 1", enters(&book, T, 1, &expected));
    expect_answer(&expected, 1);
    check("book of area 55: T' gets 1", enters(&book, T_PRIME, 1, &expected));
    check("book of area 55: U is refused by 8", refuses_entry(book, CAPLUNE_RECORDS, U, CAPLUNE_FULL_REGISTRY));
    check("row 8: T, area 26", refuses_entry(expected_book(26, S), CAPLUNE_RECORDS, T, CAPLUNE_FULL_REGISTRY));
    check("making, area 5: 8", refuses_making(5, CAPLUNE_RECORDS, S, CAPLUNE_FULL_REGISTRY));
    check("making: 2 before 8", refuses_making(3, CAPLUNE_RECORDS, NO_STOCK, CAPLUNE_BAD_ALPHABETS));
    check("making: 9 before 2", refuses_making(3, CAPLUNE_RECORDS - 1, NO_STOCK, CAPLUNE_BAD_REGISTRY));
    check("entry with 32 records: 9", refuses_entry(book, CAPLUNE_RECORDS - 1, T, CAPLUNE_BAD_REGISTRY));
    check("entry: 4", refuses_entry(book, CAPLUNE_RECORDS, NO_CONTENTS, CAPLUNE_BAD_CONTENTS));
    check("entry: 5", refuses_entry(book, CAPLUNE_RECORDS, NO_BODY, CAPLUNE_BAD_BODY));
    check("entry: 7 before 8", refuses_entry(book, CAPLUNE_RECORDS, open_ends(17), CAPLUNE_OVER_LIMITS));
    book.head.answered = book.records[1].count = UINT64_MAX - 1;
    expected.head.answered = expected.records[1].count = UINT64_MAX;
    check("the last entry that can be counted", enters(&book, T, 1, &expected));
    check("entry after it: 9 before 4", refuses_entry(book, CAPLUNE_RECORDS, NO_CONTENTS, CAPLUNE_BAD_REGISTRY));
    check("a body after it is empty", gives(body(&book, CAPLUNE_RECORDS, 1), NUMBERS(0, 0)));
}

/* A full book: what is held can be asked for and committed, and what is new is refused by 8 whatever its claim is. */
static void full_book_asked(struct book book)
{
    struct bytes held = BYTES(0, 0, 1, 0, 32), new = BYTES(0, 0, 1, 0, 33);
    struct book expected = book;
    check("asking the full book for the 32nd: 32", asks(&book, held, 32, held));
    check("the 32nd with another number: 13", refuses_other_claims(book, held, 32, CAPLUNE_OTHER_NUMBER));
    check("asking the full book for another: 8", refuses_asking(book, CAPLUNE_RECORDS, new, CAPLUNE_FULL_REGISTRY));
    check("another with 33: 8", refuses_commit(book, CAPLUNE_RECORDS, new, 33, CAPLUNE_FULL_REGISTRY));
    check("another with any number: 8", refuses_other_claims(book, new, 33, CAPLUNE_FULL_REGISTRY));
    expect_answer(&expected, 32);
    check("the 32nd with 32", commits(&book, held, 32, &expected));
}

/* 32 initial terms of one output symbol each, and another one. */
static void full_book(void)
{
    struct bytes stock = leaves(1, 64);
    struct book book = book_of("making a book of 64 block kinds", LONGEST_BOOK, stock);
    struct book expected = expected_book(LONGEST_BOOK, stock);
    bool entered = true;
    for (uint8_t number = 1; number <= 32; number++) {
        expect(&expected, number, BYTES(0, 0, 1, 0, number));
        expect_answer(&expected, number);
        entered = enters(&book, BYTES(0, 0, 1, 0, number), number, &expected) && entered;
    }
    check("32 sheets get 1 to 32", entered);
    check("the 33rd is refused by 8",
          refuses_entry(book, CAPLUNE_RECORDS, BYTES(0, 0, 1, 0, 33), CAPLUNE_FULL_REGISTRY));
    expect_answer(&expected, 32);
    check("the 32nd once more gets 32", enters(&book, BYTES(0, 0, 1, 0, 32), 32, &expected));
    full_book_asked(book);
    expected.records[1].count = expected.records[32].count = 0;
    expected.records[16].count += 3;
    book = expected;
    expect_answer(&expected, 32);
    check("moved counts of the full book are taken", enters(&book, BYTES(0, 0, 1, 0, 32), 32, &expected));
}

int main(void)
{
    reading();
    writing();
    codes();
    writing_xml();
    reading_xml();
    wrong_xml();
    translating();
    places();
    cleaning();
    comparing();
    shorter_of_two();
    joining();
    books();
    asked_with_room(60);
    asked_with_room(56);
    asked_without_room(55);
    numbers_taken();
    refused_asking();
    last_asked();
    short_books();
    full_book();
    printf("%zu samples, %zu failed\n", samples, failures);
    return failures > 0 ? 1 : 0;
}

/*
 * Measures the stack that one call takes, for docs/AREAS.md: each function runs on a thread whose stack was filled with a
 * pattern before, on inputs that take the most, and the bytes are counted from where the call begins to the last one that
 * changed.
 *
 *     gcc -std=c11 -O2 -Wall -Iinclude examples/c/stack.c target/staticlib/libexports.a -lpthread -Wl,-z,now \
 *         -o target/c/stack
 *     target/c/stack
 *
 * `-z now`: else what the dynamic linker takes, which depends on the processor, is counted where memcpy is first called.
 * Not a part of the gate: the figures depend on the machine.
 */
#define _GNU_SOURCE
#include "caplune.h"

#include <pthread.h>
#include <stdio.h>
#include <stdlib.h>
#include <string.h>
#include <sys/mman.h>

enum { STACK = 1 << 21, PATTERN = 0xa5, LEVELS = 512, RING = 64, BLOCKS = CAPLUNE_MOST_XML_SYMBOLS };

/* a of rank 1 and e; f of rank 2 and e. */
static const uint8_t stock[] = {2, 1, 0, 2, 2, 0};
/* T and U of document 01; and q(a(x1)) = q(x1), q(e) = e, whose output trees are short. */
static const uint8_t t[] = {1, 0, 3, 0, 3, 0, 1, 0, 0, 1, 0, 1, 0, 0, 0, 1, 0, 1, 0, 0, 1};
static const uint8_t u[] = {1, 0, 3, 0, 3, 0, 3, 0, 0, 1, 0, 1, 0, 0, 0, 1, 0, 1, 0, 0, 0, 0, 1, 0, 1};
static const uint8_t single[] = {1, 0, 1, 0, 1, 0, 1, 1, 0, 1, 0, 0, 1};

/* A chain of LEVELS levels, and an address as long. */
static uint8_t chain[LEVELS], address[LEVELS];
/* A ring of states with the lines of T', which is equivalent to T. */
static uint8_t ring[CAPLUNE_LONGEST_SHEET];
static size_t ring_length;
/* To join: a constant of 63 symbols of rank 1 over a leaf, and a copy of it symbol by symbol. */
static const uint8_t unary[] = {2, 1, 0, 2, 1, 0};
static uint8_t deep[3 + 2 * 64];
static const uint8_t unary_copy[] = {1, 0, 1, 0, 2, 0, 1, 1, 0, 0, 0, 1, 0, 0, 1};

/* An output tree of as many levels as symbols, and its XML. */
static uint8_t plan[BLOCKS], xml[CAPLUNE_LONGEST_XML];

static uint8_t area[65536], tree_area[CAPLUNE_DESIGN_AREA], address_area[CAPLUNE_PLACE_AREA], book_area[65536];
static struct caplune_head head;
static struct caplune_record records[CAPLUNE_RECORDS];
static size_t numbers[5];
static uint32_t refused;
/* Where the stack is when a call begins. */
static uintptr_t begin;

static void read_tree(void)
{
    refused = caplune_read_tree(stock, sizeof stock, chain, LEVELS, numbers, numbers + 1);
}

static void read_alphabets(void)
{
    refused = caplune_read_alphabets(stock, sizeof stock, numbers, numbers + 1);
}

static void read_transducer(void)
{
    refused = caplune_read_transducer(stock, sizeof stock, ring, ring_length, numbers, numbers + 1, numbers + 2);
}

static void write_transducer(void)
{
    const size_t counts = 2 * (1 + 2 * RING);
    refused = caplune_write_transducer(stock, sizeof stock, RING, ring + 1, counts, ring + 1 + counts,
                                       ring_length - 1 - counts, area, sizeof area, numbers);
}

static void is_linear(void)
{
    refused = caplune_is_linear(stock, sizeof stock, ring, ring_length, numbers);
}

static void translate(void)
{
    refused = caplune_translate(stock, sizeof stock, single, sizeof single, chain, LEVELS, area, sizeof area, numbers);
}

static void symbol_at(void)
{
    refused = caplune_symbol_at(stock, sizeof stock, t, sizeof t, chain, LEVELS, address, LEVELS, numbers, numbers + 1);
}

static void join(void)
{
    refused = caplune_join(unary, sizeof unary, unary, sizeof unary, deep, sizeof deep, unary_copy, sizeof unary_copy,
                           area, sizeof area, numbers, numbers + 1, numbers + 2);
}

static void earliest_form(void)
{
    refused = caplune_earliest_form(stock, sizeof stock, ring, ring_length, area, sizeof area, numbers, numbers + 1,
                                    numbers + 2);
}

static void clean(void)
{
    refused = caplune_clean(stock, sizeof stock, ring, ring_length, area, sizeof area, numbers, numbers + 1, numbers + 2);
}

static void compare(void)
{
    refused = caplune_compare(stock, sizeof stock, ring, ring_length, u, sizeof u, tree_area, sizeof tree_area,
                              address_area, sizeof address_area, numbers, numbers + 1, numbers + 2, numbers + 3,
                              numbers + 4);
}

static void shorter(void)
{
    refused = caplune_shorter(stock, sizeof stock, ring, ring_length, t, sizeof t, numbers, numbers + 1) == 2 ? 0 : 99;
}

static void make_registry(void)
{
    refused = caplune_make_registry(&head, records, CAPLUNE_RECORDS, book_area, sizeof book_area, stock, sizeof stock);
}

static void enter(void)
{
    refused = caplune_enter(&head, records, CAPLUNE_RECORDS, book_area, sizeof book_area, ring, ring_length, numbers);
}

static void question(void)
{
    refused = caplune_question(&head, records, CAPLUNE_RECORDS, book_area, sizeof book_area, ring, ring_length, area,
                               sizeof area, numbers, numbers + 1);
}

static void commit(void)
{
    refused = caplune_commit(&head, records, CAPLUNE_RECORDS, book_area, sizeof book_area, ring, ring_length, 1,
                             numbers);
}

static void body(void)
{
    refused = caplune_body(&head, records, CAPLUNE_RECORDS, book_area, sizeof book_area, 1, numbers) > 0 ? 0 : 99;
}

static void write_codes(void)
{
    refused = caplune_write_codes(area, sizeof area);
}

static void write_xml(void)
{
    refused = caplune_write_xml(unary, sizeof unary, plan, sizeof plan, area, sizeof area, numbers);
}

static void read_xml(void)
{
    refused = caplune_read_xml(unary, sizeof unary, xml, sizeof xml, area, sizeof area, numbers);
}

static void *run(void *call)
{
    uint8_t here = 0;
    begin = (uintptr_t)&here;
    (*(void (**)(void))call)();
    return NULL;
}

/* The bytes of a stack that change while the call runs on it. */
static size_t taken(void (*call)(void))
{
    uint8_t *stack = mmap(NULL, STACK, PROT_READ | PROT_WRITE, MAP_PRIVATE | MAP_ANONYMOUS, -1, 0);
    pthread_attr_t attributes;
    pthread_t thread;
    size_t untouched = 0;
    if (stack == MAP_FAILED)
        abort();
    memset(stack, PATTERN, STACK);
    if (pthread_attr_init(&attributes) || pthread_attr_setstack(&attributes, stack, STACK) ||
        pthread_create(&thread, &attributes, run, &call) || pthread_join(thread, NULL))
        abort();
    while (untouched < STACK && stack[untouched] == PATTERN)
        untouched++;
    munmap(stack, STACK);
    return (size_t)(begin - (uintptr_t)stack) - untouched;
}

/* State k of the ring on a calls the next one twice, and on e gives f(e, e). */
static void make_ring(void)
{
    uint8_t *next = ring;
    *next++ = RING;
    memcpy(next, "\0\1", 2);
    next += 2;
    for (int line = 0; line < 2 * RING; line++, next += 2)
        memcpy(next, "\0\3", 2);
    memcpy(next, "\1\0", 2);
    next += 2;
    for (int state = 0; state < RING; state++) {
        const uint8_t lines[] = {0, 0, 1, (state + 1) % RING, 1, (state + 1) % RING, 0, 0, 0, 1, 0, 1};
        memcpy(next, lines, sizeof lines);
        next += sizeof lines;
    }
    ring_length = (size_t)(next - ring);
}

/* The output tree of BLOCKS levels, and its XML. */
static void make_plan(void)
{
    plan[BLOCKS - 1] = 1;
    for (size_t level = 0; level < BLOCKS - 1; level++) {
        memcpy(xml + 4 * level, "<A1>", 4);
        memcpy(xml + sizeof xml - 5 * (level + 1), "</A1>", 5);
    }
    memcpy(xml + 4 * (BLOCKS - 1), "<A2/>", 5);
}

int main(void)
{
    static const struct {
        const char *name;
        void (*call)(void);
    } calls[] = {
        {"read_alphabets", read_alphabets}, {"read_tree", read_tree}, {"read_transducer", read_transducer},
        {"write_transducer", write_transducer}, {"is_linear", is_linear},
        {"translate", translate}, {"symbol_at", symbol_at}, {"join", join},
        {"earliest_form", earliest_form}, {"clean", clean}, {"compare", compare}, {"shorter", shorter},
        {"make_registry", make_registry}, {"question", question}, {"commit", commit}, {"enter", enter}, {"body", body},
        {"write_codes", write_codes}, {"write_xml", write_xml}, {"read_xml", read_xml},
    };
    memset(chain, 0, LEVELS);
    chain[LEVELS - 1] = 1;
    memset(address, 1, LEVELS);
    memcpy(deep, "\0\0\100", 3);
    deep[sizeof deep - 1] = 1;
    make_ring();
    make_plan();
    for (size_t index = 0; index < sizeof calls / sizeof *calls; index++) {
        const size_t bytes = taken(calls[index].call);
        printf("%-16s %7zu%s\n", calls[index].name, bytes, refused ? " REFUSED" : "");
    }
    return 0;
}

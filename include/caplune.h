/*
 * Caplune: tree transducers (the paper: stitch sheets), from C99 and C++.
 *
 * These are the functions of the proved library libexports.a, over files of bytes and areas that the caller lends.
 * docs/FORMATS.md has the byte formats, docs/GLOSSARY.md the words, docs/REFUSALS.md the refusals with small inputs.
 *
 * Building. `tools/build exports` in the repository writes target/staticlib/libexports.a. A program needs that file
 * and this header, and no other library than C's own (memcpy, memset, strlen):
 *
 *     gcc -std=c99 -Iinclude program.c target/staticlib/libexports.a -o program
 *
 * Answers. A function that returns uint32_t returns CAPLUNE_OK, or the number of a refusal: that of the first check,
 * in the order told at the function, that does not hold. A refusal leaves everything that was lent as it was, the
 * areas and the numbers behind the last parameters. An accepted call writes its result to the start of its area, and
 * what follows there stays. caplune_shorter and caplune_body return a size_t in place of a refusal; they write no
 * area, and always set their numbers. What is lent for reading (`const`) is never written.
 *
 * Pointers. Each pointer with a length is to so many initialised bytes (for `records`, so many records), and is not
 * null, even where the length is 0: lend any byte then. An area that is written overlaps nothing else that is lent
 * in the call. The other pointers are to one number or one head each, all distinct and outside of the areas. Nothing
 * checks this. Every content of what is lent, and every length, is allowed. No pointer is kept after the call.
 *
 * Threads. The library has no variables of its own and allocates nothing, so that any number of threads may call it
 * at once, as long as none of them writes what is lent in another's call; an area, a head and its records are lent
 * to one call at a time, but for calls that only read a registry, which may be made at once: caplune_question, each
 * with an `out` of its own, and caplune_body.
 *
 * Stack. All work memory is local. Bytes of stack of one call, measured on x86-64 (docs/AREAS.md, which has the
 * local arrays of each function): translate 176,615, symbol_at 69,863 and read_tree 57,463 on a chain of 512 levels,
 * shorter 128,991, commit 127,743, enter 127,727, question 127,695, compare 111,327, clean 107,055, earliest_form
 * 68,703, join 54,887, read_xml 12,591, is_linear 9,095, write_xml 8,511; the others under 4,600. Mind this where a
 * thread's stack is made small.
 */
#ifndef CAPLUNE_H
#define CAPLUNE_H

#include <stddef.h>
#include <stdint.h>

#ifdef __cplusplus
extern "C" {
#endif

/* The longest file of a transducer, and the least length of an area for one. */
#define CAPLUNE_LONGEST_SHEET 20483
/* The least length of the area for the input tree of a difference: 384 levels of four nodes. */
#define CAPLUNE_DESIGN_AREA 1536
/* The least length of the area for the address of a difference: 256 right-hand sides of 63 levels. */
#define CAPLUNE_PLACE_AREA 16128
/* How many records a registry has: one of the alphabets, and one of each of 32 normal forms. */
#define CAPLUNE_RECORDS 33
/* The longest file of two alphabets. */
#define CAPLUNE_LONGEST_STOCK 82
/* The least length of the area for the codes of all output symbols: 64 of two bytes. */
#define CAPLUNE_CODES_AREA 128
/* The most symbols of an output tree that is written as XML or read from it. */
#define CAPLUNE_MOST_XML_SYMBOLS 4096
/* The longest XML of an output tree: 4,095 symbols in a chain, of 9 bytes each, and one of rank 0, of 5. */
#define CAPLUNE_LONGEST_XML 36860

/* What a function answers: 0, or the number that the paper's table gives the refusal. */
enum caplune_refusal {
    /* Not refused. */
    CAPLUNE_OK = 0,
    /* An area that is lent for writing is too short. */
    CAPLUNE_SHORT_AREA = 1,
    /* Not two ranked alphabets (a stock). */
    CAPLUNE_BAD_ALPHABETS = 2,
    /* Not an input tree (a design), or over 4,096 nodes or 512 levels. */
    CAPLUNE_BAD_TREE = 3,
    /* The number of states (passes), a count, their sum or a length is wrong. */
    CAPLUNE_BAD_CONTENTS = 4,
    /* An initial term (opening) or right-hand side (line) is not one tree of known marks. */
    CAPLUNE_BAD_BODY = 5,
    /* The output tree (plan) has more symbols than its area has bytes. */
    CAPLUNE_LONG_OUTPUT = 6,
    /* The earliest form (trimmed sheet) is over the limits of a transducer. */
    CAPLUNE_OVER_LIMITS = 7,
    /* The registry (book) is full. */
    CAPLUNE_FULL_REGISTRY = 8,
    /* Not a registry (book), or one that cannot count another answer. */
    CAPLUNE_BAD_REGISTRY = 9,
    /* The output tree (plan) has more than 256 levels. */
    CAPLUNE_DEEP_OUTPUT = 10,
    /* Not an output tree (a plan) of 1 to 4,096 symbols, or not the XML of one. */
    CAPLUNE_BAD_OUTPUT = 11,
    /* The target area is shorter than the result. */
    CAPLUNE_SHORT_TARGET = 12,
    /* An entry of the transducer would get another number than the commit claims. */
    CAPLUNE_OTHER_NUMBER = 13,
    /* The output symbols of the first transducer are not the input symbols of the second. */
    CAPLUNE_OTHER_ALPHABET = 16,
    /* The joined transducer is over the limits of a transducer. */
    CAPLUNE_JOIN_OVER_LIMITS = 17
};

/* The head of a registry. */
struct caplune_head {
    /* The normal forms held, 0 to 32. */
    size_t held;
    /* The bytes of the area that are used. */
    size_t used;
    /* The entries answered. */
    uint64_t answered;
};

/*
 * Where a registry has the alphabets (record 0) or a normal form (the record of its number) in its area, and how often
 * it answered with that number. An unused record is 0, 0 and 0.
 */
struct caplune_record {
    /* The byte at which it starts. */
    size_t start;
    /* How many bytes it has. */
    size_t size;
    /* The entries answered with its number; 0 for the alphabets. The counts of all records together are `answered`. */
    uint64_t count;
};

/*
 * Reads two ranked alphabets (the paper: a stock).
 * Writes the number of input symbols, 1 to 16, to `inputs`, and that of output symbols, 1 to 64, to `outputs`.
 * Refuses by 2; all then is as it was.
 */
uint32_t caplune_read_alphabets(const uint8_t *stock, size_t stock_length, size_t *inputs, size_t *outputs);

/*
 * Reads an input tree (the paper: a design).
 * Writes the number of its nodes, 1 to 4,096, to `nodes`, and that of its levels, 1 to 512, to `levels`.
 * Refuses by 2, then 3; all then is as it was.
 */
uint32_t caplune_read_tree(const uint8_t *stock, size_t stock_length, const uint8_t *tree, size_t tree_length,
                           size_t *nodes, size_t *levels);

/*
 * Reads a transducer (the paper: a sheet).
 * Writes the number of its states, 0 to 128, to `states`, and to `counts` and `marks` how many bytes these have: the
 * counts stand in the file from byte 1 on, the marks directly behind them.
 * Refuses by 2, then 4, then 5; all then is as it was.
 */
uint32_t caplune_read_transducer(const uint8_t *stock, size_t stock_length, const uint8_t *file, size_t file_length,
                                 size_t *states, size_t *counts, size_t *marks);

/*
 * Writes the file of a transducer (the paper: a sheet) to the start of `area`, from the parts that
 * caplune_read_transducer tells, and its length to `length`.
 * Refuses by 1 where the area is under CAPLUNE_LONGEST_SHEET, then 2, then 4, also for counts that are not two bytes
 * for the initial term and for each right-hand side, then 5; all then is as it was.
 */
uint32_t caplune_write_transducer(const uint8_t *stock, size_t stock_length, size_t states, const uint8_t *counts,
                                  size_t counts_length, const uint8_t *marks, size_t marks_length, uint8_t *area,
                                  size_t area_length, size_t *length);

/*
 * Tests a transducer for being linear (the paper: single), as it is read: no child is called twice in the initial
 * term, nor in a right-hand side of a state that is reached from there through any number of calls.
 * Writes 1 or 0 to `linear`.
 * Refuses by 2, then 4, then 5, whatever is reached; all then is as it was.
 */
uint32_t caplune_is_linear(const uint8_t *stock, size_t stock_length, const uint8_t *file, size_t file_length,
                           size_t *linear);

/*
 * Translates an input tree (the paper: sews a design).
 * Writes the output tree to the start of `area`, one byte for each symbol, and the number of its symbols to
 * `length`.
 * Refuses by 2, then 4, then 5, then 3, then 6 where the area has fewer bytes than the output tree has symbols, then
 * 10 where the output tree has more than 256 levels, its root being level 1; all then is as it was.
 */
uint32_t caplune_translate(const uint8_t *stock, size_t stock_length, const uint8_t *file, size_t file_length,
                           const uint8_t *tree, size_t tree_length, uint8_t *area, size_t area_length, size_t *length);

/*
 * Finds the symbol at an address (the paper: a place) of the output tree, without building the tree, which may have
 * any size and any number of levels. An address is the numbers of children from the root down, one byte each, from 1
 * on; no byte at all is the root.
 * Writes 1 to `there` and the symbol to `symbol`; or 0 to `there` where the output tree has no such address, and
 * `symbol` then stays.
 * Refuses by 2, then 4, then 5, then 3; all then is as it was. No address is refused.
 */
uint32_t caplune_symbol_at(const uint8_t *stock, size_t stock_length, const uint8_t *file, size_t file_length,
                           const uint8_t *tree, size_t tree_length, const uint8_t *address, size_t address_length,
                           size_t *there, size_t *symbol);

/*
 * Makes the earliest form of a transducer (the paper: the trimmed sheet), its states numbered as first met.
 * Writes its file to the start of `area`, and to `states`, `marks` and `length` how many states and marks it has,
 * and how many bytes its file.
 * Refuses by 1 where the area is under CAPLUNE_LONGEST_SHEET, then 2, then 4, then 5, then 7; all then is as it was.
 */
uint32_t caplune_earliest_form(const uint8_t *stock, size_t stock_length, const uint8_t *file, size_t file_length,
                               uint8_t *area, size_t area_length, size_t *states, size_t *marks, size_t *length);

/*
 * Makes the normal form of a transducer (the paper: cleans a sheet): two transducers over the same alphabets have
 * the same normal form, byte for byte, exactly if their output trees are equal on every input tree.
 * Writes its file to the start of `area`, and to `states`, `marks` and `length` how many states and marks it has,
 * and how many bytes its file.
 * Refuses by 1 where the area is under CAPLUNE_LONGEST_SHEET, then 2, then 4, then 5, then 7 where the earliest form
 * is over the limits; all then is as it was.
 */
uint32_t caplune_clean(const uint8_t *stock, size_t stock_length, const uint8_t *file, size_t file_length,
                       uint8_t *area, size_t area_length, size_t *states, size_t *marks, size_t *length);

/*
 * Joins two transducers, the second after the first (the paper: sheet after sheet). The result has the input symbols
 * of the first alphabets and the output symbols of the second; its states are the pairs that are met, numbered as
 * first met.
 * Writes its file to the start of `area`, and to `states`, `marks` and `length` how many states and marks it has,
 * and how many bytes its file.
 * Refuses by 1 where the area is under CAPLUNE_LONGEST_SHEET, then 2 for the first stock, then 2 for the second,
 * then 16, then 4 and 5 for the first file, then 4 and 5 for the second, then 17; all then is as it was.
 */
uint32_t caplune_join(const uint8_t *first_stock, size_t first_stock_length, const uint8_t *second_stock,
                      size_t second_stock_length, const uint8_t *first, size_t first_length, const uint8_t *second,
                      size_t second_length, uint8_t *area, size_t area_length, size_t *states, size_t *marks,
                      size_t *length);

/*
 * Compares two transducers (the paper: whether two sheets sew alike). Here `tree` and `address` are the areas.
 * Writes 1 to `alike` where the output trees are equal on every input tree; all else then stays, both areas too.
 * Otherwise it writes 0 to `alike`, to the start of `tree` an input tree, to the start of `address` an address at
 * which its two output trees have two symbols, to `nodes` and `numbers` how many bytes these two have, and to `left`
 * and `right` the symbol there of the first and of the second. Which difference it shows is the library's choice;
 * the tree has at most CAPLUNE_DESIGN_AREA nodes and 384 levels, the address at most CAPLUNE_PLACE_AREA numbers.
 * Refuses by 1 where `tree` is under CAPLUNE_DESIGN_AREA or `address` under CAPLUNE_PLACE_AREA, then 2, then 4 and 5
 * for the first file, then 4 and 5 for the second, then 7 for the first, then 7 for the second; all then is as it
 * was.
 */
uint32_t caplune_compare(const uint8_t *stock, size_t stock_length, const uint8_t *first, size_t first_length,
                         const uint8_t *second, size_t second_length, uint8_t *tree, size_t tree_length,
                         uint8_t *address, size_t address_length, size_t *alike, size_t *nodes, size_t *numbers,
                         size_t *left, size_t *right);

/*
 * Finds the marks (the paper: the bodies) of that of two equivalent transducers which has fewer, of the first on a
 * tie.
 * Returns 1 or 2, the file they are a part of, and writes to `start` at which byte of it they start and to `size`
 * how many bytes they have, which is never 0. Returns 0 and writes 0 and 0 where the two are not equivalent, and
 * where caplune_compare with long areas would refuse; no number is given then.
 */
size_t caplune_shorter(const uint8_t *stock, size_t stock_length, const uint8_t *first, size_t first_length,
                       const uint8_t *second, size_t second_length, size_t *start, size_t *size);

/*
 * Makes a registry of normal forms (the paper: a book) over two alphabets, whatever stood in head, records and area
 * before.
 * Writes the head (0 held, `stock_length` used, 0 answered), the first CAPLUNE_RECORDS records (the alphabets, then
 * unused ones, the count of each 0), and a copy of `stock` to the start of `area`. Further records stay.
 * Refuses by 9 where there are fewer than CAPLUNE_RECORDS records, then 2, then 8 where the area is shorter than the
 * stock; all then is as it was.
 */
uint32_t caplune_make_registry(struct caplune_head *head, struct caplune_record *records, size_t records_length,
                               uint8_t *area, size_t area_length, const uint8_t *stock, size_t stock_length);

/*
 * Enters a transducer into a registry (the paper: a sheet into a book). Lend head, records and area as the call
 * before it left them.
 * Writes to `number` the lowest number, from 1 on, under which its normal form is held. One that is not held is
 * added: behind the bytes used in the area, with the next record and number, `held` and `used` of the head growing.
 * In either case `answered` and the count of the record with that number grow by one, and no other count does. Two
 * transducers get one number exactly if they are equivalent.
 * Refuses by 9 for what is not a registry, also where the counts of the first CAPLUNE_RECORDS records do not sum to
 * `answered` or record 0 or an unused one has another count than 0, or where `answered` is UINT64_MAX, so that no
 * further answer can be counted; a count of 0 in a record that is used is no fault, and no count has a limit of its
 * own. Then refuses by 4, 5 and 7 as caplune_clean does under the registry's alphabets, then by 8 where the normal form
 * is not held and 32 are or the area has no room for it; all then is as it was.
 */
uint32_t caplune_enter(struct caplune_head *head, struct caplune_record *records, size_t records_length, uint8_t *area,
                       size_t area_length, const uint8_t *file, size_t file_length, size_t *number);

/*
 * Asks which number an entry of a transducer would get (the paper: looks before entering). The registry is only read;
 * here `out` is the area.
 * Writes that number, as caplune_enter would write it, to `number`, the normal form of the transducer to the start of
 * `out`, and how many bytes this has to `size`. Nothing is counted.
 * Refuses by 1 where `out` is under CAPLUNE_LONGEST_SHEET, then as caplune_enter would the entry: by 9, also where
 * `answered` is UINT64_MAX, then by 4, 5 and 7, then by 8 for a normal form that is not held and has no record or no
 * room; all then is as it was, `out` too.
 */
uint32_t caplune_question(const struct caplune_head *head, const struct caplune_record *records, size_t records_length,
                          const uint8_t *area, size_t area_length, const uint8_t *file, size_t file_length,
                          uint8_t *out, size_t out_length, size_t *number, size_t *size);

/*
 * Commits a transducer to a registry under the number that a question answered, its claim: does what caplune_enter
 * does, if the entry gets just this number. Lend head, records and area as the call before it left them; the normal
 * form that the question wrote is not needed. After a question that was answered, and where only questions and refused
 * calls came between and nobody else wrote the registry, a commit of the same file with the number of the answer is
 * accepted with it.
 * Writes that number to `number`, adds and counts as caplune_enter does. Any two entries or commits that are accepted
 * get one number exactly if their transducers are equivalent.
 * Refuses by 9, 4, 5, 7 and 8 as caplune_enter does, whatever the claim, and last by 13 where the entry would get
 * another number than `claim`, which may be any number; all then is as it was.
 */
uint32_t caplune_commit(struct caplune_head *head, struct caplune_record *records, size_t records_length,
                        uint8_t *area, size_t area_length, const uint8_t *file, size_t file_length, size_t claim,
                        size_t *number);

/*
 * Finds the normal form of this number in a registry (the paper: the body of a sheet in a book).
 * Returns how many bytes its file has, and writes to `start` at which byte of the area it starts. Returns 0 and
 * writes 0 wherever that part is empty: for the number 0, for one that is not held, where caplune_enter would refuse
 * by 9 (for wrong counts too), and for one that is held with no bytes, as a registry that was made elsewhere may do. No
 * refusal is told.
 */
size_t caplune_body(const struct caplune_head *head, const struct caplune_record *records, size_t records_length,
                    const uint8_t *area, size_t area_length, size_t number, size_t *start);

/*
 * Writes the codes of all 64 output symbols (the paper: the codes of blocks) to the start of `area`: two bytes each, a
 * letter from A to H and a digit from 1 to 8, that of symbol k from byte 2 k on.
 * Refuses by 1 where the area is under CAPLUNE_CODES_AREA; all then is as it was.
 */
uint32_t caplune_write_codes(uint8_t *area, size_t area_length);

/*
 * Writes an output tree (the paper: a plan) as XML. Here `text` is the area. A symbol of rank 0 is an empty element,
 * as `<A2/>`, and any other the element of its children, as `<A1>`, these in their order and `</A1>`, named by the
 * codes that caplune_write_codes gives; there is no space, no declaration and no line end. The tree has at most
 * CAPLUNE_MOST_XML_SYMBOLS symbols, and any number of levels.
 * Writes the text to the start of `text`, and how many bytes it has, at most CAPLUNE_LONGEST_XML, to `length`.
 * Refuses by 2, then 11, then 12 where the area is shorter than this text; all then is as it was.
 */
uint32_t caplune_write_xml(const uint8_t *stock, size_t stock_length, const uint8_t *tree, size_t tree_length,
                           uint8_t *text, size_t text_length, size_t *length);

/*
 * Reads the XML of an output tree (the paper: a plan). Just the texts that caplune_write_xml writes under the same
 * alphabets are read, and nothing may stand before or behind them: writing and reading undo each other.
 * Writes the output tree to the start of `area`, one byte for each symbol, and how many symbols it has, at most
 * CAPLUNE_MOST_XML_SYMBOLS, to `length`.
 * Refuses by 2, then 11, then 12 where the area has fewer bytes than this output tree has symbols; all then is as it
 * was.
 */
uint32_t caplune_read_xml(const uint8_t *stock, size_t stock_length, const uint8_t *text, size_t text_length,
                          uint8_t *area, size_t area_length, size_t *length);

#ifdef __cplusplus
}
#endif

#endif

/* Sighvona: from the region text of one function to SPIR-V instructions.
 *
 * The library is crates/sighvona/out/libsighvona.a, which `rt lib` in crates/sighvona writes (x86-64, System V). It is proved that for every
 * text, first id and set of slices a call gives what its definition gives, and nothing is asked of the caller but that every pointer is valid and
 * aligned for its count, that the slices lent for writing, `words` and `next` do not overlap with one another or with the text, and that
 * `words` and `next` are not null. A slice of count 0 needs no memory. The library keeps nothing between calls, allocates nothing and calls
 * nothing but memset, so calls with slices of their own may run at once. The most stack that a call was measured to take is
 * 12,532 bytes, on regions as deep as they can be (tools/measure-stack): lend a thread of its own 32 KB or more.
 *
 * For C99 and later, and for C++. */
#ifndef SIGHVONA_H
#define SIGHVONA_H

#include <stddef.h>
#include <stdint.h>

/* The version of this header, and the number of it that `sighvona_version` gives for the library's. Macros, so that #if can ask. */
#define SIGHVONA_VERSION_MAJOR 0
#define SIGHVONA_VERSION_MINOR 6
#define SIGHVONA_VERSION_PATCH 0
#define SIGHVONA_VERSION (SIGHVONA_VERSION_MAJOR * 65536u + SIGHVONA_VERSION_MINOR * 256u + SIGHVONA_VERSION_PATCH)

#ifdef __cplusplus
extern "C" {
#endif

enum {
    /* the fewest words of each scratch slice */
    SIGHVONA_SCRATCH_WORDS = 16384,
    /* the most bytes of a text */
    SIGHVONA_TEXT_BYTES = 32768,
    /* the highest id that is given: the next free id, a module's bound, is one more at most */
    SIGHVONA_HIGHEST_ID = 4194302,
    /* No list has more words, which is proved (crates/lifting_sizes, `list_bound`): with an output slice of so many, refusal 11 never comes. */
    SIGHVONA_MAX_WORDS = 23184
};

/* What a call answers: 0, or the number of the refusal in documents 01 and 02. They are looked for in the order 8, 1 to 7, 13, 9, 10, 11, each
 * over the whole text before the next, so the answer is the first that applies. Later versions may have more numbers. */
enum sighvona_answer {
    SIGHVONA_LIFTED = 0,
    /* the text has over 32,768 bytes */
    SIGHVONA_LONG = 1,
    /* the text is not of the forms, or is empty */
    SIGHVONA_FORMS = 2,
    /* over 128 regions, 128 nodes, 512 ops, 256 consts, 64 params, 2,048 values, 512 inputs and outs, 512 immediates or 512 ctrl targets */
    SIGHVONA_LIMITS = 3,
    /* a reference names nothing (a (d I) whose type is 0, an (n N I) that is no select's output); an id is 0 where 0 has no meaning; a const
     * id repeats; an opcode or operand kind is over 65,535, an operand kind 0, or an immediate kind over 2; an INST's opcode is one that the
     * lifter gives itself; a select's or loop's control number is over 2 */
    SIGHVONA_REFERENCES = 4,
    /* a node doesn't stand exactly once in all regions' lists, or an op exactly once in all blocks' lists; a region is child of two places,
     * or of itself, directly or through others; region 0 is a child; without ctrl lines, another region is no child */
    SIGHVONA_TREE = 5,
    /* unequal counts: region 0's inputs and the params; a loop's inits, its body's inputs, its body's outputs; case outputs and outs, where a
     * case whose last node is an exit may have no outputs at all. Also a case with inputs; region 0's outputs over 1, or any with ctrl lines;
     * `bool` without 2 cases; another select without cases; each edge-value entry and the inputs of the region it names, where a target
     * without an entry has zero values */
    SIGHVONA_COUNTS = 6,
    /* ctrl: twice for a region; on a child; missing on a reached root; a target that is region 0 or a child; values twice for a target, or
     * for a region that is no target; inputs or targets that the kind doesn't have, or too few of them */
    SIGHVONA_CONTROL = 7,
    /* a scratch slice has under 16,384 words */
    SIGHVONA_SCRATCH = 8,
    /* the first id is 0 or not above every id in the text, or an id over 4,194,302 would be given */
    SIGHVONA_IDS = 9,
    /* a kept instruction uses a value that no kept block sets and that is neither a constant nor a parameter */
    SIGHVONA_VALUES = 10,
    /* the output slice is shorter than the list */
    SIGHVONA_OUTPUT = 11,
    /* the two targets of a `bool` ctrl are equal, whether it is reached or not */
    SIGHVONA_TARGETS = 13
};

/* Lifts a text: SIGHVONA_LIFTED, which is 0, or the number of the refusal.
 *
 *   text, text_len    the text, without the line `(first N)` that the program `lift` reads before it; only read
 *   first             the first new id
 *   func, func_len    the function slice, scratch of at least 16,384 words, whatever they hold
 *   work, work_len    the work slice, the same
 *   out, out_len      the output slice, of any length
 *   words             how many words the list has
 *   next              the next free id: the new ids run from `first` to one below it
 *
 * What they hold at the end:
 *
 *   answer            *words                  *next           out                                        func, work
 *   0                 the list's words        the next id     the list, then what was there beyond it    zeros
 *   11                the list's words        what it was     what it was                                zeros
 *   1 to 7, 13, 9, 10 what it was             what it was     what it was                                zeros
 *   8                 what it was             what it was     what it was                                what they were
 *
 * So after 11 a call with an output slice of *words words gives the list, and a first call may lend none (out_len 0) to ask for the count.
 * All words of the scratch slices are zeros, those beyond 16,384 too.
 *
 * Each instruction of the list is words: opcode, attributes, result type id (0 for none), result id (0 for none), the count of immediates
 * and three words each (kind, operand kind, word), the count of ids, the ids. Their order: function, parameters; per block its label, phis,
 * instructions, merge, way out; function end. `sighvona_next` steps through them. */
uint32_t sighvona_lift(const uint8_t *text, size_t text_len, uint32_t first, uint32_t *func, size_t func_len, uint32_t *work,
                       size_t work_len, uint32_t *out, size_t out_len, size_t *words, uint32_t *next);

/* Reads a text and lifts nothing: 0 if it is acceptable by 8, 1 to 7 and 13, else the number of the first of these refusals that
 * applies. The parameters are those of `sighvona_lift`.
 *
 * Both scratch slices end as zeros, after 0 too, except after 8, when they are what they were. */
uint32_t sighvona_read(const uint8_t *text, size_t text_len, uint32_t *func, size_t func_len, uint32_t *work, size_t work_len);

/* The library's version: major * 65,536 + minor * 256 + patch. If it is not SIGHVONA_VERSION, this header is another version's. */
uint32_t sighvona_version(void);

/* An instruction of a list. The pointers point into the list. */
struct sighvona_inst {
    uint32_t opcode;
    uint32_t attributes;       /* 0 is the default set */
    uint32_t result_type;      /* 0 for none */
    uint32_t result;           /* 0 for none */
    uint32_t immediates;       /* how many immediates */
    const uint32_t *immediate; /* three words each: kind (0 short, 1 long start, 2 long continued), operand kind, word */
    uint32_t ids;              /* how many ids */
    const uint32_t *id;
};

/* Reads the instruction that starts at word `at` of a list of `words` words, and gives the place behind it. Gives 0, and leaves `*inst`
 * alone, where no whole instruction is: at the end, or where the words are cut short. No word beyond the list is read, whatever the words
 * are. To step through a list:
 *
 *   struct sighvona_inst inst;
 *   size_t at = 0, after;
 *   for (; (after = sighvona_next(out, words, at, &inst)) != 0; at = after) { .. }
 *
 * At the end `at` is `words`, as a list is whole instructions. */
static inline size_t sighvona_next(const uint32_t *list, size_t words, size_t at, struct sighvona_inst *inst) {
    size_t more, immediates, ids;
    /* an instruction has six words, and `more` those of its immediates and ids */
    if (at > words || words - at < 6) {
        return 0;
    }
    more = words - at - 6;
    if (list[at + 4] > more / 3) {
        return 0;
    }
    immediates = 3 * (size_t)list[at + 4];
    if (list[at + 5 + immediates] > more - immediates) {
        return 0;
    }
    ids = list[at + 5 + immediates];
    inst->opcode = list[at];
    inst->attributes = list[at + 1];
    inst->result_type = list[at + 2];
    inst->result = list[at + 3];
    inst->immediates = list[at + 4];
    inst->immediate = list + at + 5;
    inst->ids = list[at + 5 + immediates];
    inst->id = list + at + 6 + immediates;
    return at + 6 + immediates + ids;
}

#ifdef __cplusplus
}
#endif

#endif

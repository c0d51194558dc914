/* Tries the library through its header: the listing of document 01 instruction by instruction, every refusal with what it leaves in every
 * slice and behind every pointer, the reading alone, the version, and `sighvona_next` on words that are no list. Exit status 0 if all is as
 * it must be. C99, and C++ too. */
#include "sighvona.h"

#include <stdio.h>
#include <stdlib.h>
#include <string.h>

#define WORDS ((size_t)SIGHVONA_SCRATCH_WORDS)
/* what the slices have room for, so that a word written past a slice's end is seen */
#define ROOM ((size_t)SIGHVONA_MAX_WORDS + 1000)
#define NOISE 0xdeadbeefu
#define COUNT(array) (sizeof(array) / sizeof(array)[0])

#define FUNC "(func 0 2 3 0)\n"
#define EMPTY "(region (in) (nodes) (out))\n"
#define BLOCK "(region (in) (nodes 0) (out))\n(block 0)\n"
#define LISTING FUNC "(const 5 43)\n" BLOCK "(op 0 4 (inst 128) (c 0) (c 0))\n"
#define LISTING_WORDS 36
#define TWO_REGIONS FUNC "(const 5 43)\n" EMPTY EMPTY
/* region 0 goes to region 1 twice, by a `bool` or an INST, and region 1 returns */
#define TWICE(kind) TWO_REGIONS "(ctrl 0 0 " kind " (ins (c 0)) (to 1 1) (vals))\n(ctrl 1 0 return (ins) (to) (vals))\n"
/* a select with one out, its cases, and the nodes from 1 on; a case that gives it, and one with these nodes and outputs */
#define SELECT(first, second) \
    FUNC "(const 5 43)\n(region (in) (nodes 0) (out (n 0 0)))\n" first second "(select bool (c 0) (cases 1 2) (outs (0 4)) 0)\n"
#define GIVES "(region (in) (nodes) (out (c 0)))\n"
#define ENDS(nodes, outputs) "(region (in) (nodes " nodes ") (out" outputs "))\n"
#define EXIT "(exit (inst 252))\n"
/* a loop and a select in it, each with its control number and the space before it */
#define CONTROLS(loop, select) \
    FUNC "(const 5 43)\n(region (in) (nodes 0) (out))\n(region (in) (nodes 1) (out))\n" EMPTY EMPTY \
         "(loop 1 (c 0) (init)" loop ")\n(select bool (c 0) (cases 2 3) (outs)" select ")\n"

static const struct {
    uint32_t opcode, attributes, result_type, result, immediates, immediate[3], ids, id[2];
} LIST[] = {
    {54, 0, 2, 10, 1, {0, 1, 0}, 1, {3, 0}},
    {248, 0, 0, 12, 0, {0, 0, 0}, 0, {0, 0}},
    {128, 0, 4, 11, 0, {0, 0, 0}, 2, {5, 5}},
    {253, 0, 0, 0, 0, {0, 0, 0}, 0, {0, 0}},
    {56, 0, 0, 0, 0, {0, 0, 0}, 0, {0, 0}},
};

/* Texts that are refused whatever is lent: `text` and then `unit`, so many times. */
static const struct refused {
    uint32_t number;
    const char *why;
    uint32_t first;
    const char *text;
    const char *unit;
    size_t times;
} REFUSED[] = {
    {SIGHVONA_LONG, "32,769 bytes", 10, FUNC, " ", SIGHVONA_TEXT_BYTES + 2 - sizeof FUNC},
    {SIGHVONA_FORMS, "32,768 bytes that are no forms", 10, FUNC, " ", SIGHVONA_TEXT_BYTES + 1 - sizeof FUNC},
    {SIGHVONA_FORMS, "the empty text", 10, "", "", 0},
    {SIGHVONA_FORMS, "a space before a line's end", 10, FUNC "(region (in) (nodes) (out)) \n", "", 0},
    {SIGHVONA_FORMS, "a last line that is not ended", 10, FUNC "(imported)", "", 0},
    {SIGHVONA_FORMS, "the program's first line", 10, "(first 10)\n" LISTING, "", 0},
    {SIGHVONA_FORMS, "a number over 32 bits", 10, "(func 0 2 4294967296 0)\n(imported)\n", "", 0},
    {SIGHVONA_FORMS, "a loop without a control number", 10, CONTROLS("", " 0"), "", 0},
    {SIGHVONA_FORMS, "a select with two control numbers", 10, CONTROLS(" 0", " 0 0"), "", 0},
    {SIGHVONA_LIMITS, "129 regions", 10, FUNC, EMPTY, 129},
    {SIGHVONA_REFERENCES, "a return type of 0", 10, "(func 0 0 3 0)\n(imported)\n", "", 0},
    {SIGHVONA_REFERENCES, "a constant that is not there", 10, FUNC "(region (in) (nodes) (out (c 0)))\n", "", 0},
    {SIGHVONA_REFERENCES, "a constant's id twice", 10, FUNC "(const 5 43)\n(const 5 43)\n" EMPTY, "", 0},
    {SIGHVONA_REFERENCES, "an opcode that only the lifter gives", 10, FUNC BLOCK "(op 0 0 (inst 253))\n", "", 0},
    {SIGHVONA_REFERENCES, "a loop's control number of 3", 10, CONTROLS(" 3", " 2"), "", 0},
    {SIGHVONA_REFERENCES, "a select's control number of all bits", 10, CONTROLS(" 2", " 4294967295"), "", 0},
    {SIGHVONA_TREE, "region 1 is no child", 10, FUNC, EMPTY, 2},
    {SIGHVONA_TREE, "a node twice", 10, FUNC "(region (in) (nodes 0 0) (out))\n(block)\n", "", 0},
    {SIGHVONA_COUNTS, "a param without an input", 10, FUNC "(param 0 2)\n" EMPTY, "", 0},
    {SIGHVONA_COUNTS, "an input without a param", 10, FUNC "(region (in (0 4)) (nodes) (out))\n", "", 0},
    {SIGHVONA_COUNTS, "a case without outputs that ends in a block", 10, SELECT(GIVES, ENDS("1 2", "")) EXIT "(block)\n", "", 0},
    {SIGHVONA_COUNTS, "a case with too many outputs that ends in an exit", 10, SELECT(GIVES, ENDS("1", " (c 0) (c 0)")) EXIT, "", 0},
    {SIGHVONA_CONTROL, "a branch without a target", 10, FUNC EMPTY "(ctrl 0 0 branch (ins) (to) (vals))\n", "", 0},
    {SIGHVONA_CONTROL, "two ctrl lines for a region", 10, FUNC EMPTY, "(ctrl 0 0 return (ins) (to) (vals))\n", 2},
    {SIGHVONA_CONTROL, "equal targets that are region 0", 10, FUNC "(const 5 43)\n" EMPTY "(ctrl 0 0 bool (ins (c 0)) (to 0 0) (vals))\n", "", 0},
    {SIGHVONA_TARGETS, "equal targets", 10, TWICE("bool"), "", 0},
    {SIGHVONA_TARGETS, "equal targets, with a first id that is too low", 5, TWICE("bool"), "", 0},
    {SIGHVONA_TARGETS, "equal targets of a line that is not reached", 10,
     TWO_REGIONS "(ctrl 0 0 return (ins) (to) (vals))\n(ctrl 1 0 bool (ins (c 0)) (to 1 1) (vals))\n", "", 0},
    {SIGHVONA_IDS, "the first id is 0", 0, FUNC "(imported)\n", "", 0},
    {SIGHVONA_IDS, "the first id is one of the text", 3, FUNC "(imported)\n", "", 0},
    {SIGHVONA_IDS, "the label would get an id over the highest", SIGHVONA_HIGHEST_ID, FUNC EMPTY, "", 0},
    {SIGHVONA_VALUES, "an input of a region that is not reached", 10,
     FUNC EMPTY "(region (in (0 4)) (nodes) (out))\n(ctrl 0 0 return (ins (r 1 0)) (to) (vals))\n", "", 0},
    {SIGHVONA_VALUES, "a result of a dropped block", 10,
     FUNC "(const 5 43)\n(region (in) (nodes 0 1 2) (out))\n(region (in) (nodes 3) (out))\n(exit (inst 252))\n(block 0)\n"
          "(loop 1 (c 0) (init) 0)\n(block 1)\n(op 0 4 (inst 128))\n(op 0 4 (inst 128) (d 0))\n",
     "", 0},
};

/* Lengths of the scratch slices that are too short, for any text. */
static const struct {
    size_t func_len, work_len;
} SHORT[] = {{WORDS - 1, WORDS}, {WORDS, WORDS - 1}, {0, ROOM}, {ROOM, 0}, {0, 0}};

static uint32_t func[ROOM], work[ROOM], out[ROOM];
static size_t words;
static uint32_t next;
static const char *about = "";
static int wrong, calls;

static void expect(int holds, const char *what) {
    if (!holds) {
        wrong = 1;
        printf("wrong: %s: %s\n", about, what);
    }
}

/* Whether the words from one place to another are all the same. */
static int all(const uint32_t *slice, size_t from, size_t to, uint32_t word) {
    for (size_t i = from; i < to; i++) {
        if (slice[i] != word) {
            return 0;
        }
    }
    return 1;
}

static void noise(void) {
    for (size_t i = 0; i < ROOM; i++) {
        func[i] = work[i] = out[i] = NOISE;
    }
    words = next = NOISE;
    calls++;
}

/* Whether both scratch slices hold what the answer promises, and the words beyond them what they held. */
static void expect_scratch(uint32_t answer, size_t func_len, size_t work_len) {
    uint32_t word = answer == SIGHVONA_SCRATCH ? NOISE : 0;
    expect(all(func, 0, func_len, word) && all(func, func_len, ROOM, NOISE), "function slice");
    expect(all(work, 0, work_len, word) && all(work, work_len, ROOM, NOISE), "work slice");
}

/* A call with noise in every slice must give this answer and leave in scratch what it promises. */
static void lift(uint32_t answer, const char *text, size_t text_len, uint32_t first, size_t func_len, size_t work_len, size_t out_len) {
    noise();
    /* a slice of no words needs no memory */
    expect(sighvona_lift((const uint8_t *)text, text_len, first, func, func_len, work, work_len, out_len ? out : NULL, out_len, &words,
                         &next) == answer,
           "lift's answer");
    expect_scratch(answer, func_len, work_len);
}

/* The same call must be refused, and leave output, next id and, except after 11, the word count alone. */
static void refuse(uint32_t answer, const char *text, size_t text_len, uint32_t first, size_t func_len, size_t work_len, size_t out_len) {
    lift(answer, text, text_len, first, func_len, work_len, out_len);
    expect(all(out, 0, ROOM, NOISE), "output after a refusal");
    expect(next == NOISE, "next id after a refusal");
    if (answer != SIGHVONA_OUTPUT) {
        expect(words == NOISE, "word count after a refusal");
    }
}

static void read_alone(uint32_t answer, const char *text, size_t text_len, size_t func_len, size_t work_len) {
    noise();
    expect(sighvona_read((const uint8_t *)text, text_len, func, func_len, work, work_len) == answer, "read's answer");
    expect_scratch(answer, func_len, work_len);
}

/* Whether the output is the listing's list and else noise. */
static void expect_listing(void) {
    struct sighvona_inst inst;
    size_t at = 0, after, i;
    expect(words == LISTING_WORDS, "word count");
    expect(next == 13, "next id");
    for (i = 0; (after = sighvona_next(out, words, at, &inst)) != 0; i++, at = after) {
        if (i == COUNT(LIST)) {
            expect(0, "an instruction too many");
            return;
        }
        expect(inst.opcode == LIST[i].opcode && inst.attributes == LIST[i].attributes, "opcode and attributes");
        expect(inst.result_type == LIST[i].result_type && inst.result == LIST[i].result, "result type and result");
        expect(inst.immediates == LIST[i].immediates && memcmp(inst.immediate, LIST[i].immediate, inst.immediates * 3 * sizeof *out) == 0,
               "immediates");
        expect(inst.ids == LIST[i].ids && memcmp(inst.id, LIST[i].id, inst.ids * sizeof *out) == 0, "ids");
        expect(inst.immediate == out + at + 5 && inst.id + inst.ids == out + after, "places of immediates and ids");
    }
    expect(i == COUNT(LIST) && at == words, "all instructions");
    expect(all(out, words, ROOM, NOISE), "output beyond the list");
}

static void listing(void) {
    const size_t length = sizeof LISTING - 1;
    about = "the listing";
    lift(SIGHVONA_LIFTED, LISTING, length, 10, WORDS, WORDS, WORDS);
    expect_listing();
    lift(SIGHVONA_LIFTED, LISTING, length, 10, ROOM, WORDS + 1, SIGHVONA_MAX_WORDS);
    expect_listing();
    read_alone(SIGHVONA_LIFTED, LISTING, length, WORDS, WORDS);
    read_alone(SIGHVONA_LIFTED, LISTING, length, WORDS + 1, ROOM);

    about = "the listing, with an output slice that is too short";
    for (size_t out_len = 0; out_len < LISTING_WORDS; out_len++) {
        refuse(SIGHVONA_OUTPUT, LISTING, length, 10, WORDS, WORDS, out_len);
        expect(words == LISTING_WORDS, "the words wanted");
    }
    about = "the listing, with as many words as it wants";
    lift(SIGHVONA_LIFTED, LISTING, length, 10, WORDS, WORDS, words);
    expect_listing();

    about = "the listing, with scratch that is too short";
    for (size_t i = 0; i < COUNT(SHORT); i++) {
        refuse(SIGHVONA_SCRATCH, LISTING, length, 10, SHORT[i].func_len, SHORT[i].work_len, WORDS);
        read_alone(SIGHVONA_SCRATCH, LISTING, length, SHORT[i].func_len, SHORT[i].work_len);
    }
}

/* Texts that give so many ids: the last one may be the highest, and is refused beyond it. */
static void highest_id(void) {
    static const struct {
        const char *text;
        uint32_t ids;
    } given[] = {
        {FUNC EMPTY, 2},
        {FUNC "(imported)\n", 1},
        {FUNC "(param 0 4)\n(param 0 4)\n(imported)\n", 3},
    };
    about = "the highest id";
    expect(SIGHVONA_HIGHEST_ID == 4194302, "one below the universal limit of a module's bound");
    for (size_t i = 0; i < COUNT(given); i++) {
        uint32_t above = SIGHVONA_HIGHEST_ID + 1;
        lift(SIGHVONA_LIFTED, given[i].text, strlen(given[i].text), above - given[i].ids, WORDS, WORDS, WORDS);
        expect(next == above, "next id");
        refuse(SIGHVONA_IDS, given[i].text, strlen(given[i].text), above - given[i].ids + 1, WORDS, WORDS, WORDS);
    }
}

/* A selection that is no `bool` may name one target twice. */
static void equal_targets(void) {
    const char *text = TWICE("(inst 251)");
    about = "equal targets of an INST";
    lift(SIGHVONA_LIFTED, text, strlen(text), 10, WORDS, WORDS, WORDS);
    read_alone(0, text, strlen(text), WORDS, WORDS);
}

/* A case that ends in an exit and has no outputs gives no pair to the select's phi. */
static void killed_case(void) {
    static const struct {
        const char *text;
        uint32_t ids;
    } TEXTS[] = {
        {SELECT(GIVES, ENDS("1", "")) EXIT, 2},
        {SELECT(ENDS("1", ""), GIVES) EXIT, 2},
        {SELECT(ENDS("1", ""), ENDS("2", "")) EXIT EXIT, 0},
    };
    about = "a case that ends in an exit";
    for (size_t i = 0; i < COUNT(TEXTS); i++) {
        struct sighvona_inst inst;
        size_t at = 0, after, phis = 0;
        lift(SIGHVONA_LIFTED, TEXTS[i].text, strlen(TEXTS[i].text), 10, WORDS, WORDS, WORDS);
        for (; (after = sighvona_next(out, words, at, &inst)) != 0; at = after) {
            if (inst.opcode == 245) {
                phis++;
                expect(inst.ids == TEXTS[i].ids, "the pairs of the phi");
            }
        }
        expect(phis == 1, "one phi");
        read_alone(0, TEXTS[i].text, strlen(TEXTS[i].text), WORDS, WORDS);
    }
}

/* The control numbers of a loop and of a select in it are the immediates of their merges. */
static void control_numbers(void) {
    static const struct {
        const char *text;
        uint32_t loop, select;
    } TEXTS[] = {
        {CONTROLS(" 0", " 0"), 0, 0},
        {CONTROLS(" 1", " 2"), 1, 2},
        {CONTROLS(" 2", " 1"), 2, 1},
    };
    about = "control numbers";
    for (size_t i = 0; i < COUNT(TEXTS); i++) {
        const uint32_t loop[] = {0, 3, TEXTS[i].loop}, select[] = {0, 2, TEXTS[i].select};
        struct sighvona_inst inst;
        size_t at = 0, after, merges = 0;
        lift(SIGHVONA_LIFTED, TEXTS[i].text, strlen(TEXTS[i].text), 10, WORDS, WORDS, WORDS);
        for (; (after = sighvona_next(out, words, at, &inst)) != 0; at = after) {
            if (inst.opcode == 246 || inst.opcode == 247) {
                merges++;
                expect(inst.immediates == 1 && memcmp(inst.immediate, inst.opcode == 246 ? loop : select, sizeof loop) == 0,
                       "the merge's immediate");
            }
        }
        expect(merges == 2, "two merges");
        read_alone(0, TEXTS[i].text, strlen(TEXTS[i].text), WORDS, WORDS);
    }
}

/* A text that is refused: with output slices of any length, but 8 comes first. */
static void refused(const struct refused *given) {
    static char text[SIGHVONA_TEXT_BYTES + 100];
    size_t length = strlen(given->text), unit = strlen(given->unit);
    about = given->why;
    memcpy(text, given->text, length);
    for (size_t i = 0; i < given->times; i++, length += unit) {
        memcpy(text + length, given->unit, unit);
    }
    refuse(given->number, text, length, given->first, WORDS, WORDS, WORDS);
    refuse(given->number, text, length, given->first, WORDS + 1, ROOM, 0);
    read_alone(given->number < SIGHVONA_SCRATCH || given->number == SIGHVONA_TARGETS ? given->number : 0, text, length, WORDS, WORDS);
    refuse(SIGHVONA_SCRATCH, text, length, given->first, WORDS - 1, WORDS, WORDS);
    read_alone(SIGHVONA_SCRATCH, text, length, WORDS, WORDS - 1);
}

/* `sighvona_next` on a copy of these words, which ends where its memory ends (for -fsanitize=address). */
static size_t step(const uint32_t *list, size_t count, size_t at) {
    uint32_t *copy = (uint32_t *)malloc(count * sizeof *list + 1);
    struct sighvona_inst inst;
    size_t after;
    if (copy == NULL) {
        expect(0, "memory");
        return 0;
    }
    if (count > 0) {
        memcpy(copy, list, count * sizeof *list);
    }
    after = sighvona_next(copy, count, at, &inst);
    free(copy);
    return after;
}

static void stepping(void) {
    static const uint32_t large[] = {0xffffffffu, 0x80000000u, 0x55555556u, 0x55555555u, 3, 1};
    const size_t first = 10;
    about = "words that are no list";
    lift(SIGHVONA_LIFTED, LISTING, sizeof LISTING - 1, 10, WORDS, WORDS, WORDS);
    for (size_t count = 0; count <= LISTING_WORDS; count++) {
        expect(step(out, count, 0) == (count < first ? 0 : first), "a list that is cut short");
        expect(step(out, count, count) == 0, "the end of a list");
        expect(step(out, count, count + 1) == 0 && step(out, count, SIZE_MAX) == 0, "beyond the end of a list");
    }
    for (size_t i = 0; i < COUNT(large); i++) {
        const uint32_t immediates[] = {1, 0, 0, 0, large[i], 0, 0}, ids[] = {1, 0, 0, 0, 0, large[i]};
        const uint32_t both[] = {1, 0, 0, 0, 1, 7, 7, 7, large[i]};
        expect(step(immediates, COUNT(immediates), 0) == 0, "a count of immediates that is too large");
        expect(step(ids, COUNT(ids), 0) == 0, "a count of ids that is too large");
        expect(step(both, COUNT(both), 0) == 0, "a count of ids behind an immediate that is too large");
    }
    expect(sighvona_next(NULL, 0, 0, NULL) == 0, "a list of no words");
}

int main(void) {
    about = "the version";
    expect(sighvona_version() == SIGHVONA_VERSION, "the library's is the header's");
    expect(SIGHVONA_VERSION == 1536, "0.6.0 as a number");
    listing();
    highest_id();
    equal_targets();
    killed_case();
    control_numbers();
    for (size_t i = 0; i < COUNT(REFUSED); i++) {
        refused(&REFUSED[i]);
    }
    stepping();
    printf("%s, %d calls\n", wrong ? "failed" : "ok", calls);
    return wrong;
}

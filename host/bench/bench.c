/*
 * bench: a bench method with three parts that share steps, held by a host program written in C.
 *
 * The method, as the laboratory writes it:
 *
 *   diluter     take a sample from the rack, then dilute it into the reader's plate
 *   reader      receive the diluted plate, read it, and hand the result over
 *   LIMS link   receive the result, then file it in the database
 *
 * Diluting is ONE step of two instruments: the diluter dispenses and the reader's plate is filled. So is handing over
 * the result. The old controller could take back "dilute" in the diluter and leave it standing in the reader. This
 * program shows that such a half step can neither be made nor taken back, and that one command takes back "dilute" with
 * everything that was done on it.
 *
 * The same method as a record, with the channels below; a' is the other end of channel a:
 *
 *   sample.dilute.0 | (dilute'.result.0 | result'.file.0)     under restrictions on dilute and on result
 *
 * The restrictions say that dilute and result are never done towards the outside, only between two parts of this bench.
 */
#include <stdio.h>
#include <string.h>

#include "concoursel.h"

enum channel {
    DILUTE = 1, /* the diluter dispenses into the reader's plate */
    SAMPLE = 2, /* the diluter takes a sample from the rack, which stands outside the bench */
    RESULT = 3, /* the reader hands its result to the LIMS link */
    FILED = 4   /* the LIMS link files the result in the database, outside the bench */
};

#define OTHER_END(channel) ((channel) + 128)
#define NOT_DONE 0, 0

/* The record: on the right the node's number. */
static uint8_t method[] = {
    4, DILUTE,                          /*  0  restriction on dilute */
    4, RESULT,                          /*  1  restriction on result */
    3,                                  /*  2  parallel */
    1, SAMPLE, NOT_DONE,                /*  3  diluter: take a sample */
    1, DILUTE, NOT_DONE,                /*  4  diluter: dilute */
    0,                                  /*  5 */
    3,                                  /*  6  parallel */
    1, OTHER_END(DILUTE), NOT_DONE,     /*  7  reader: plate is filled */
    1, RESULT, NOT_DONE,                /*  8  reader: hand over the result */
    0,                                  /*  9 */
    1, OTHER_END(RESULT), NOT_DONE,     /* 10  LIMS link: receive the result */
    1, FILED, NOT_DONE,                 /* 11  LIMS link: file it */
    0                                   /* 12 */
};

/* The steps of each part: what to call them, their place, and where their key stands in the bytes. */
static const struct step {
    const char *part, *name;
    uint16_t place;
    size_t key_at;
} steps[] = {
    {"diluter", "sample", 3, 7},    {"diluter", "dilute", 4, 11},
    {"reader", "dilute", 7, 17},    {"reader", "result", 8, 21},
    {"LIMS link", "result", 10, 26}, {"LIMS link", "file", 11, 30},
};

#define STEPS (sizeof steps / sizeof *steps)

static const char *const causes[] = {
    [CONCOURSEL_DONE] = "done",
    [CONCOURSEL_NO_RECORD] = "bytes are no record",
    [CONCOURSEL_OVER_LIMIT] = "over a limit",
    [CONCOURSEL_KEY_ZERO] = "key is 0",
    [CONCOURSEL_NO_PLACE] = "no such place",
    [CONCOURSEL_KEY_STANDS] = "this key stands in the record already",
    [CONCOURSEL_NO_STEP] = "the rules derive no such step",
    [CONCOURSEL_KEY_ABSENT] = "this key stands nowhere in the record",
    [CONCOURSEL_NO_UNDO] = "the rules derive no undo of this key",
    [CONCOURSEL_ROW_SHORT] = "row too short",
    [CONCOURSEL_NOT_SOUND] = "the record is not sound",
};

static int surprises;

static unsigned key_of(const struct step *step) {
    return method[step->key_at] * 256u + method[step->key_at + 1];
}

/* Prints what each part has done: a done step bears its key. */
static void show(void) {
    const char *part = "";
    for (size_t i = 0; i < STEPS; i++) {
        if (strcmp(part, steps[i].part) != 0) printf("%s    %-10s", i ? "\n" : "", steps[i].part);
        part = steps[i].part;
        if (key_of(&steps[i]) != 0)
            printf("  %s [key %u]", steps[i].name, key_of(&steps[i]));
        else
            printf("  %s", steps[i].name);
    }
    printf("\n");
}

/* Holds what came of a call against what a chemist would expect. */
static void expect(int right) {
    if (right) return;
    printf("  -> NOT AS EXPECTED\n");
    surprises++;
}

/* Says why a call was refused and whether the record is still as it was. */
static void tell_refusal(uint8_t refusal, int changed) {
    const char *cause = refusal < sizeof causes / sizeof *causes ? causes[refusal] : NULL;
    const char *left = changed ? "CHANGED" : "unchanged";
    printf("  -> refused %u: %s; the record is %s\n", refusal, cause ? cause : "unknown", left);
}

/* Says what was asked and what came of it. */
static void tell(const char *asked, uint32_t answer, uint8_t refusal, uint8_t label, const uint8_t *before) {
    uint8_t got = CONCOURSEL_STEP_REFUSAL(answer);
    int changed = memcmp(before, method, sizeof method) != 0;
    printf("%s\n", asked);
    if (got == CONCOURSEL_DONE)
        printf("  -> done, label %u%s\n", CONCOURSEL_STEP_LABEL(answer), CONCOURSEL_STEP_LABEL(answer) ? "" : " (a step inside the bench)");
    else
        tell_refusal(got, changed);
    expect(got == refusal && CONCOURSEL_STEP_LABEL(answer) == label && changed == (refusal == CONCOURSEL_DONE));
    if (got == CONCOURSEL_DONE) show();
}

static void forward(const char *asked, uint16_t p, uint16_t q, uint16_t key, uint8_t refusal, uint8_t label) {
    uint8_t before[sizeof method];
    memcpy(before, method, sizeof method);
    tell(asked, concoursel_forward(method, sizeof method, p, q, key), refusal, label, before);
}

static void undo(const char *asked, uint16_t key, uint8_t refusal, uint8_t label) {
    uint8_t before[sizeof method];
    memcpy(before, method, sizeof method);
    tell(asked, concoursel_undo(method, sizeof method, key), refusal, label, before);
}

/* Prints the keys that an answer has put into the row, and holds them against those that a chemist would expect. */
static void tell_keys(const char *what, uint64_t answer, const uint16_t *row, const uint16_t *expected, size_t count) {
    size_t number = CONCOURSEL_NUMBER(answer);
    printf("  -> %s", what);
    for (size_t i = 0; i < number; i++) printf("%skey %u", i ? ", " : "", row[i]);
    printf("%s\n", number ? "" : "nothing");
    int right = number == count && memcmp(row, expected, count * sizeof *row) == 0;
    expect(CONCOURSEL_REFUSAL(answer) == CONCOURSEL_DONE && right);
}

/* Says which keys have to be taken back before this one. A key marks a step, so there are no more keys than steps. */
static void waiting(const char *asked, uint16_t key, const uint16_t *expected, size_t count) {
    uint16_t row[STEPS];
    uint64_t answer = concoursel_waiting(method, sizeof method, key, row, STEPS);
    printf("%s\n", asked);
    tell_keys("", answer, row, expected, count);
}

/* Takes back this key with everything that stands on it, and says what went. */
static void take_back(const char *asked, uint16_t key, const uint16_t *expected, size_t count) {
    uint16_t row[STEPS];
    uint64_t answer = concoursel_take_back(method, sizeof method, key, row, STEPS);
    printf("%s\n", asked);
    tell_keys("gone, in this order: ", answer, row, expected, count);
    show();
}

/* Asks for the same with room for so many keys, and is refused. */
static void take_nothing_back(const char *asked, uint16_t key, size_t room, uint8_t refusal) {
    uint8_t before[sizeof method];
    uint16_t row[STEPS];
    memcpy(before, method, sizeof method);
    uint64_t answer = concoursel_take_back(method, sizeof method, key, row, room);
    int changed = memcmp(before, method, sizeof method) != 0;
    printf("%s\n", asked);
    tell_refusal(CONCOURSEL_REFUSAL(answer), changed);
    expect(CONCOURSEL_REFUSAL(answer) == refusal && CONCOURSEL_NUMBER(answer) == 0 && !changed);
}

/* The record as the old controller would have left it: dilute taken back in the diluter, standing in the reader. */
static void half_taken_back(void) {
    uint8_t whole[sizeof method];
    memcpy(whole, method, sizeof method);
    memset(method + steps[1].key_at, 0, 2);
    show();
    take_nothing_back("take back dilute (key 2) here, with what stands on it", 2, STEPS, CONCOURSEL_NOT_SOUND);
    memcpy(method, whole, sizeof method);
}

int main(void) {
    uint8_t blank[sizeof method];
    memcpy(blank, method, sizeof method);

    printf("The method as it was loaded, %u nodes:\n", CONCOURSEL_NUMBER(concoursel_read(method, sizeof method)));
    show();

    printf("\nNo record at all: a null pointer with length 0\n");
    printf("  -> refused %u\n", CONCOURSEL_STEP_REFUSAL(concoursel_forward(NULL, 0, 3, 0, 1)));
    if (concoursel_undo(NULL, 0, 1) != 256 || CONCOURSEL_REFUSAL(concoursel_read(NULL, 0)) != 1) surprises++;

    printf("\n-- forward --\n");
    forward("dilute before a sample was taken (diluter and reader, key 2)", 4, 7, 2, CONCOURSEL_NO_STEP, 0);
    forward("take a sample (diluter, key 1)", 3, 0, 1, CONCOURSEL_DONE, SAMPLE);
    forward("dilute in the diluter alone (key 2)", 4, 0, 2, CONCOURSEL_NO_STEP, 0);
    forward("dilute in the reader alone (key 2)", 7, 0, 2, CONCOURSEL_NO_STEP, 0);
    forward("dilute, diluter and reader together (key 2)", 4, 7, 2, CONCOURSEL_DONE, 0);
    forward("dilute once more with the same key (key 2)", 4, 7, 2, CONCOURSEL_KEY_STANDS, 0);
    forward("hand over the result, reader and LIMS link together (key 3)", 8, 10, 3, CONCOURSEL_DONE, 0);

    printf("\n-- back --\n");
    printf("The diluter has nothing after its dilute step. The old controller would now take it back there alone.\n");
    undo("take back dilute (key 2) while the reader's result stands on it", 2, CONCOURSEL_NO_UNDO, 0);
    printf("In the diluter only dilute stands on the sample. But the reader's result stands on dilute.\n");
    waiting("what has to go before the sample (key 1)?", 1, (const uint16_t[]){2, 3}, 2);
    waiting("what has to go before the hand-over (key 3)?", 3, (const uint16_t[]){0}, 0);
    undo("take back the hand-over (key 3)", 3, CONCOURSEL_DONE, 0);
    undo("take back dilute (key 2), whole: diluter and reader", 2, CONCOURSEL_DONE, 0);
    undo("take back dilute (key 2) once more", 2, CONCOURSEL_KEY_ABSENT, 0);

    printf("\n-- forward again, then back in one command --\n");
    forward("dilute, diluter and reader together (key 2)", 4, 7, 2, CONCOURSEL_DONE, 0);
    forward("hand over the result, reader and LIMS link together (key 3)", 8, 10, 3, CONCOURSEL_DONE, 0);
    forward("file the result (LIMS link, key 4)", 11, 0, 4, CONCOURSEL_DONE, FILED);
    printf("The old controller would now have left half a dilute behind:\n");
    half_taken_back();
    printf("The plate was a wrong one: dilute has to go, and the hand-over and the filing stand on it.\n");
    take_nothing_back("take back dilute (key 2) with what stands on it, room for two keys", 2, 2, CONCOURSEL_ROW_SHORT);
    take_back("take back dilute (key 2) with what stands on it", 2, (const uint16_t[]){4, 3, 2}, 3);
    take_nothing_back("take back dilute (key 2) with what stands on it once more", 2, STEPS, CONCOURSEL_KEY_ABSENT);
    undo("take back the sample (key 1)", 1, CONCOURSEL_DONE, SAMPLE);

    if (memcmp(blank, method, sizeof method) != 0) surprises++;
    printf("\nThe record is %s it was loaded.\n", memcmp(blank, method, sizeof method) ? "NOT as" : "byte for byte as");
    return surprises != 0;
}

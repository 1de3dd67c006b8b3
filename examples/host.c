/* A host program. It draws a chart of twelve weeks, with numbers under its columns, and prints it. It draws a character of its own. Then it asks for every
   refusal, and checks what comes back. Where something is not as it should be it says so, and ends with status 1. docs/HOST.md says how to compile it;
   host.out is what it prints. */
#include "roadparsnip.h"

#if ROADPARSNIP_INTERFACE != 3
#error "this program was written for interface 3 of roadparsnip.h"
#endif

#include <stdio.h>
#include <string.h>

/* The header, 4 words; an axis in value 1, nine pixels up; a point for each week, 8 units or four pixels apart, week zero at X 8; then, in mode 0, a number
   under weeks 0, 4 and 8. A character is 16 units wide, so it is in the middle under X where it starts at X - 8. "0 4 8 " from X 0 does it: each word has
   two characters, the first one low, and takes X 32 units further. Words are octal. */
static const uint16_t chart[] = {
    1, 1, 4, 31,
    0116400, 0, 022, 0110000, 040146, 0,
    0117400, 010, 0, 0174110, 0124000,
    040030, 040032, 040034, 040036, 040040, 040040, 040036, 040034, 040032, 040030, 040026, 040026,
    0114000, 0, 0, 0100000, 020060, 020064, 020070,
    0172000,
};
enum { CHART = sizeof chart / sizeof chart[0] };

static uint8_t image[ROADPARSNIP_IMAGE_BYTES], before[ROADPARSNIP_IMAGE_BYTES];

/* so many rows and columns of the picture, the top row first: y grows upward. 1 where a pixel could not be read */
static int show(int32_t rows, int32_t columns) {
    for (int32_t y = rows - 1; y >= 0; y--) {
        for (int32_t x = 0; x < columns; x++) {
            roadparsnip_read read = roadparsnip_read_pixel(image, sizeof image, x, y);
            if (read.answer != ROADPARSNIP_DONE) return 1;
            putchar(" -+#"[read.digit]);
        }
        putchar('\n');
    }
    return 0;
}

static int draw(void) {
    if (roadparsnip_check(chart, CHART) != ROADPARSNIP_DONE) return 1;
    if (roadparsnip_clear(image, sizeof image) != ROADPARSNIP_DONE) return 1;

    /* in slices of five steps, as a host with other work does it; a null set of 0 bytes asks for the built-in characters */
    roadparsnip_ran ran;
    unsigned steps = 0, words = 0, stores = 0;
    roadparsnip_machine machine = roadparsnip_fresh();
    do {
        ran = roadparsnip_run(chart, CHART, machine, image, sizeof image, 5, NULL, 0);
        machine = ran.machine;
        steps += ran.steps, words += ran.words, stores += ran.stores;
    } while (ran.answer == ROADPARSNIP_DONE);

    if (show(17, 52) != 0) return 1;
    printf("answer %d, %u steps, %u words, %u stores, counter %d, X %d, Y %d\n", ran.answer, steps, words, stores, machine.counter, (int)machine.x,
           (int)machine.y);
    return ran.answer != ROADPARSNIP_STOPPED;
}

/* ---- characters of its own: a set of 760 bytes, eight for each code from 32. Here code 94 is an arrow, and all others are blank */
static uint8_t own[ROADPARSNIP_SET_BYTES];

static int lend(void) {
    static const uint16_t file[] = {1, 1, 4, 6, 0117400, 0, 0, 0100000, 020136, 0172000}; /* at (0, 0), code 94 and a space */
    static const uint8_t arrow[8] = {0x10, 0x38, 0x7C, 0xFE, 0x10, 0x10, 0x10, 0x00};     /* the top row first, the highest bit leftmost */
    memcpy(own + 8 * (94 - 32), arrow, sizeof arrow);
    if (roadparsnip_clear(image, sizeof image) != ROADPARSNIP_DONE) return 1;
    roadparsnip_ran ran = roadparsnip_run(file, 10, roadparsnip_fresh(), image, sizeof image, 1000, own, sizeof own);
    if (show(8, 8) != 0) return 1;
    printf("answer %d, %u stores, X %d\n", ran.answer, (unsigned)ran.stores, (int)ran.machine.x);
    return ran.answer != ROADPARSNIP_STOPPED;
}

/* ---- what is turned away */
static int asked, wrong;

static void expect(const char *what, int holds) {
    asked++;
    if (holds) return;
    printf("not as it should be: %s\n", what);
    wrong++;
}

/* what was expected since the last report; 1 where something was wrong */
static int report(const char *what) {
    int failed = wrong != 0;
    printf("%s: %d of %d checks hold\n", what, asked - wrong, asked);
    asked = wrong = 0;
    return failed;
}

static int unchanged(void) { return memcmp(image, before, sizeof image) == 0; }

/* A run that is turned away gives the machine back as it was, counts nothing and draws nothing. */
static int away(roadparsnip_ran ran, roadparsnip_machine given, int answer) {
    return ran.answer == answer && memcmp(&ran.machine, &given, sizeof given) == 0 && ran.steps == 0 && ran.words == 0 && ran.stores == 0 && unchanged();
}

static void refuse_files(roadparsnip_machine m) {
    uint16_t file[CHART];
    memcpy(file, chart, sizeof chart);
    expect("check of no file is 12", roadparsnip_check(NULL, 0) == ROADPARSNIP_SHORT_FILE);
    expect("check of half a header is 12", roadparsnip_check(chart, 3) == ROADPARSNIP_SHORT_FILE);
    expect("check of a cut file is 15", roadparsnip_check(chart, CHART - 1) == ROADPARSNIP_BAD_SEGMENT);
    expect("run of no file is 12", away(roadparsnip_run(NULL, 0, m, image, sizeof image, 9, NULL, 0), m, ROADPARSNIP_SHORT_FILE));
    expect("step of a cut file is 15", away(roadparsnip_step(chart, CHART - 1, m, image, sizeof image, NULL, 0), m, ROADPARSNIP_BAD_SEGMENT));
    file[1] = 9;
    expect("nine segments are 14", away(roadparsnip_run(file, CHART, m, image, sizeof image, 9, NULL, 0), m, ROADPARSNIP_BAD_COUNT));
    file[0] = 2;
    expect("another tag is 13", away(roadparsnip_run(file, CHART, m, image, sizeof image, 9, NULL, 0), m, ROADPARSNIP_BAD_TAG));
}

static int reads(const uint8_t *from, size_t bytes, int32_t x, int32_t y, int answer) {
    roadparsnip_read read = roadparsnip_read_pixel(from, bytes, x, y);
    return read.answer == answer && read.digit == 0;
}

static void refuse_images(roadparsnip_machine m) {
    expect("clear of no image is 11", roadparsnip_clear(NULL, 0) == ROADPARSNIP_BAD_IMAGE);
    expect("clear of a short image is 11", roadparsnip_clear(image, sizeof image - 1) == ROADPARSNIP_BAD_IMAGE && unchanged());
    expect("run into no image is 11", away(roadparsnip_run(chart, CHART, m, NULL, 0, 9, NULL, 0), m, ROADPARSNIP_BAD_IMAGE));
    expect("11 comes before 12", away(roadparsnip_step(NULL, 0, m, image, sizeof image - 1, NULL, 0), m, ROADPARSNIP_BAD_IMAGE));
    expect("read of no image is 11", reads(NULL, 0, 0, 0, ROADPARSNIP_BAD_IMAGE));
    expect("left of the field is 31", reads(image, sizeof image, -1, 0, ROADPARSNIP_OUTSIDE));
    expect("below the field is 31", reads(image, sizeof image, 0, -1, ROADPARSNIP_OUTSIDE));
    expect("right of the field is 31", reads(image, sizeof image, ROADPARSNIP_SIDE, 0, ROADPARSNIP_OUTSIDE));
    expect("above the field is 31", reads(image, sizeof image, 0, ROADPARSNIP_SIDE, ROADPARSNIP_OUTSIDE));
    expect("far away is 31", reads(image, sizeof image, INT32_MIN, INT32_MAX, ROADPARSNIP_OUTSIDE));
}

static void refuse_machine(const char *what, roadparsnip_machine m) {
    roadparsnip_started started = roadparsnip_start(m, 0);
    expect(what, started.answer == ROADPARSNIP_BAD_MACHINE && memcmp(&started.machine, &m, sizeof m) == 0);
    expect(what, away(roadparsnip_run(chart, CHART, m, image, sizeof image, 9, NULL, 0), m, ROADPARSNIP_BAD_MACHINE));
    expect(what, away(roadparsnip_step(chart, CHART, m, image, sizeof image, NULL, 0), m, ROADPARSNIP_BAD_MACHINE));
}

static void refuse_machines(const roadparsnip_machine fresh) {
    roadparsnip_machine m;
    const uint32_t too_many = ROADPARSNIP_MOST_STEPS + 1;
#define OUT(field, number) (m = fresh, m.field = (number), refuse_machine(#field " " #number " is 16", m))
    OUT(x, -4097), OUT(x, 4096), OUT(x, INT32_MIN), OUT(y, -4097), OUT(y, 4096), OUT(y, INT32_MAX), OUT(mode, 7), OUT(mode, 254);
    OUT(value, 4), OUT(value, 255), OUT(write, 2), OUT(write, 255), OUT(latch, 2), OUT(latch, 255), OUT(increment, 64), OUT(increment, 255);
    OUT(status, 3), OUT(status, 18), OUT(status, 20), OUT(status, 28), OUT(status, 31), OUT(status, 33), OUT(status, 255);
    expect("a budget too large is 17", away(roadparsnip_run(chart, CHART, fresh, image, sizeof image, too_many, NULL, 0), fresh, ROADPARSNIP_BAD_BUDGET));
    expect("a set of 759 bytes is 18", away(roadparsnip_run(chart, CHART, fresh, image, sizeof image, 9, own, sizeof own - 1), fresh, ROADPARSNIP_BAD_SET));
    expect("a set of 1 byte is 18", away(roadparsnip_step(chart, CHART, fresh, image, sizeof image, own, 1), fresh, ROADPARSNIP_BAD_SET));
    expect("17 comes before 18", away(roadparsnip_run(chart, CHART, fresh, image, sizeof image, too_many, own, 1), fresh, ROADPARSNIP_BAD_BUDGET));
    m = fresh, m.status = ROADPARSNIP_STOPPED;
    expect("18 comes before 28", away(roadparsnip_step(chart, CHART, m, image, sizeof image, own, 1), m, ROADPARSNIP_BAD_SET));
    expect("a machine that has stopped is 28", away(roadparsnip_step(chart, CHART, m, image, sizeof image, NULL, 0), m, ROADPARSNIP_NOT_RUNNING));
    m.latch = 2;
    expect("11 comes before 16", away(roadparsnip_run(chart, CHART, m, image, sizeof image - 1, 9, NULL, 0), m, ROADPARSNIP_BAD_IMAGE));
    expect("15 comes before 16", away(roadparsnip_run(chart, CHART - 1, m, image, sizeof image, 9, NULL, 0), m, ROADPARSNIP_BAD_SEGMENT));
    expect("16 comes before 17 and 28", away(roadparsnip_run(chart, CHART, m, image, sizeof image, too_many, NULL, 0), m, ROADPARSNIP_BAD_MACHINE));
}

/* ---- instructions that are refused */

/* goes to (20, 50) and plots it: pixel (10, 25), in value 3. Two steps, three words, one store; the next instruction is at address 6 */
#define POINT 0117400, 040024, 062

static const struct refused {
    const char *what;
    uint8_t answer;
    uint16_t counter;              /* the address of the refused instruction's first word */
    uint32_t steps, words, stores; /* of the steps before it */
    uint16_t count;
    uint16_t file[16];
} refused[] = {
    {"a jump to an odd address is 21 there", ROADPARSNIP_ODD_ADDRESS, 7, 3, 5, 1, 9, {1, 1, 4, 5, POINT, 0160000, 7}},
    {"a jump to a segment that is not there is 22", ROADPARSNIP_NO_SEGMENT, 8192, 3, 5, 1, 9, {1, 1, 4, 5, POINT, 0160000, 8192}},
    {"the end of the segment is 23", ROADPARSNIP_NO_PLACE, 6, 2, 3, 1, 7, {1, 1, 4, 3, POINT}},
    {"a code that is not built is 24", ROADPARSNIP_NOT_BUILT, 6, 2, 3, 1, 8, {1, 1, 4, 4, POINT, 0134000}},
    {"data before a mode is 25", ROADPARSNIP_NO_MODE_SET, 2, 1, 1, 0, 6, {1, 1, 4, 2, 0164000, 040024}},
    {"a second word with bit 15 is 26", ROADPARSNIP_SECOND_WORD, 6, 2, 3, 1, 9, {1, 1, 4, 5, POINT, 040100, 0100000}},
    {"a character of code 0 is 32", ROADPARSNIP_BAD_CHARACTER, 8, 3, 4, 1, 9, {1, 1, 4, 5, POINT, 0100000, 0105}},
    {"the fourth move by 1,023 is 27", ROADPARSNIP_OUT_OF_RANGE, 20, 6, 10, 1, 16, {1, 1, 4, 12, POINT, 0110000, 01777, 0, 01777, 0, 01777, 0, 041777, 0}},
};

/* The run leaves what a run of the steps before the refused instruction leaves. Only the status differs: it is the answer. */
static void refuse_instruction(const struct refused *r) {
    roadparsnip_machine m = roadparsnip_fresh();
    expect(r->what, roadparsnip_clear(image, sizeof image) == ROADPARSNIP_DONE && roadparsnip_clear(before, sizeof before) == ROADPARSNIP_DONE);
    roadparsnip_ran until = roadparsnip_run(r->file, r->count, m, before, sizeof before, r->steps, NULL, 0);
    roadparsnip_ran ran = roadparsnip_run(r->file, r->count, m, image, sizeof image, ROADPARSNIP_MOST_STEPS, NULL, 0);
    expect(r->what, ran.answer == r->answer && ran.machine.status == r->answer && ran.machine.counter == r->counter);
    expect(r->what, ran.steps == r->steps && ran.words == r->words && ran.stores == r->stores);
    expect(r->what, unchanged() && roadparsnip_read_pixel(image, sizeof image, 10, 25).digit == (r->stores == 1 ? 3 : 0));
    ran.machine.status = 0;
    expect(r->what, until.answer == ROADPARSNIP_DONE && memcmp(&ran.machine, &until.machine, sizeof m) == 0);
}

int main(void) {
    if (draw() != 0 || lend() != 0) return 1;
    memcpy(before, image, sizeof image);
    refuse_files(roadparsnip_fresh());
    refuse_images(roadparsnip_fresh());
    refuse_machines(roadparsnip_fresh());
    int failed = report("turned away");
    for (size_t i = 0; i < sizeof refused / sizeof *refused; i++) refuse_instruction(refused + i);
    return report("refused instructions") | failed;
}

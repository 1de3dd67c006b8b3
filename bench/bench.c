/* bench WORKLOAD TURNS [DETAIL]: makes the workload's inputs, does it so many times, and prints three numbers: a sum over all that the calls
   answered and the image that they left, the bytes of stack that the deepest call took, and the nanoseconds of all turns.
   The detail is the path of a display file, or a budget. It makes only the calls of roadparsnip.h; bench/run links it with either library. */
#include <stdio.h>
#include <stdlib.h>
#include <string.h>
#include <time.h>
#include <ucontext.h>

#include "roadparsnip.h"

enum { SEGMENT = 4096, MOST_WORDS = 8 * SEGMENT, WEEKS = 52, MARK = 0xa5 };

typedef struct {
    uint16_t word[2 + 2 * 8 + MOST_WORDS];
    size_t words;
} display_file;

static display_file files[WEEKS];
static _Alignas(64) uint8_t image[ROADPARSNIP_IMAGE_BYTES];
static size_t image_bytes = ROADPARSNIP_IMAGE_BYTES;
static uint32_t budget = ROADPARSNIP_MOST_STEPS;
static roadparsnip_machine machine;
static uint8_t set[ROADPARSNIP_SET_BYTES + 1];
static size_t set_bytes; /* 0: the built-in set serves */

static uint64_t sum = 1;
static char stack[1 << 18];
static char *caller; /* the highest stack pointer that a call was made at */

static void fail(const char *why) {
    fprintf(stderr, "bench: %s\n", why);
    exit(2);
}

/* ---- the calls, with the sum over what they answer */

static void add(uint64_t number) {
    sum = (sum ^ number) * 0x9e3779b97f4a7c15u;
    sum ^= sum >> 32;
}

static inline void note(void) {
    char *here;
    __asm__ volatile("mov %%rsp, %0" : "=r"(here));
    if (caller < here) caller = here;
}

static void add_machine(roadparsnip_machine m) {
    add((uint64_t)(uint32_t)m.x << 32 | (uint32_t)m.y);
    add((uint64_t)m.counter << 48 | (uint64_t)m.mode << 40 | (uint64_t)m.value << 32 | m.write << 24 | m.latch << 16 | m.increment << 8 | m.status);
}

static void add_ran(roadparsnip_ran ran) {
    add_machine(ran.machine);
    add((uint64_t)ran.answer << 32 | ran.steps);
    add((uint64_t)ran.words << 32 | ran.stores);
}

static void run(const display_file *file) {
    note();
    add_ran(roadparsnip_run(file->word, file->words, machine, image, image_bytes, budget, set, set_bytes));
}

static void clear(void) {
    note();
    add(roadparsnip_clear(image, image_bytes));
}

static void read_pixel(int x, int y) {
    note();
    roadparsnip_read read = roadparsnip_read_pixel(image, image_bytes, x, y);
    add(read.answer);
    add(read.digit);
}

/* ---- what a turn is */

static void run_turn(void) { run(files); }

static void each_turn(void) {
    for (int s = 0; s < 8; s++) run(files + s);
}

static void chart_turn(void) {
    for (int week = 0; week < WEEKS; week++) {
        clear();
        run(files + week);
    }
}

static void check_turn(void) {
    note();
    add(roadparsnip_check(files->word, files->words));
}

static void start_turn(void) {
    note();
    roadparsnip_started started = roadparsnip_start(machine, 8);
    add(started.answer);
    add_machine(started.machine);
}

static void step_turn(void) {
    roadparsnip_machine m = machine;
    for (int i = 0; i < 1000; i++) {
        note();
        roadparsnip_ran ran = roadparsnip_step(files->word, files->words, m, image, image_bytes, set, set_bytes);
        add_ran(ran);
        m = ran.machine;
    }
}

static void read_turn(void) {
    for (int y = 0; y < ROADPARSNIP_SIDE; y++)
        for (int x = 0; x < ROADPARSNIP_SIDE; x++) read_pixel(x, y);
}

static void outside_turn(void) {
    for (int i = -256; i < 256; i++) {
        read_pixel(i, -1);
        read_pixel(512, i);
    }
}

/* ---- the display files */

static uint16_t code[MOST_WORDS];
static size_t count;

static void put(int word) {
    if (count == MOST_WORDS) fail("more words than eight segments hold");
    code[count++] = (uint16_t)word;
}

/* The words put so far, as segments one after another. */
static void close_file(display_file *file) {
    size_t segments = (count + SEGMENT - 1) / SEGMENT, header = 2 + 2 * segments;
    file->word[0] = 1;
    file->word[1] = (uint16_t)segments;
    for (size_t s = 0; s < segments; s++) {
        size_t left = count - SEGMENT * s;
        file->word[2 + 2 * s] = (uint16_t)(header + SEGMENT * s);
        file->word[3 + 2 * s] = (uint16_t)(left < SEGMENT ? left : SEGMENT);
    }
    memcpy(file->word + header, code, 2 * count);
    file->words = header + count;
    count = 0;
}

static int size_of(int move, int sign) { return move < 0 ? sign - move : move; }

static void long_vector(int dx, int dy) {
    put(040000 + size_of(dx, 020000));
    put(size_of(dy, 020000));
}

static void short_vector(int dx, int dy) { put(040000 + size_of(dx, 0100) * 0200 + size_of(dy, 0100)); }

static void line_from(int x, int y, int dx, int dy) {
    put(0114000);
    put(x);
    put(y);
    put(0110000);
    long_vector(dx, dy);
}

/* A chart like that of examples/weeks.df, as it stands in one of the year's weeks: four levels, two axes, the line of the week, and the points. */
static void chart(int now) {
    put(0116400);
    put(96);
    put(96);
    for (int level = 288; level <= 864; level += 192) line_from(96, level, 832, 0);
    put(0117000);
    put(96);
    put(96);
    line_from(96, 96, 832, 0);
    line_from(96, 96, 0, 768);
    line_from(96 + 16 * now, 96, 0, 768);
    put(0174120);
    for (int higher = -2; higher <= 2; higher += 2) {
        put(0117400);
        put(96);
        put(96);
        put(0124000);
        for (int week = 0; week < WEEKS; week++) {
            int apart = (week + now) % WEEKS - WEEKS / 2;
            put(040000 + 194 + higher + apart * apart * 5 / 8);
        }
    }
    put(0172000);
    close_file(files + now);
}

static void charts(const char *detail) {
    (void)detail;
    for (int week = 0; week < WEEKS; week++) chart(week);
}

static void there_and_back(int dx, int dy) {
    long_vector(dx, dy);
    long_vector(-dx, -dy);
}

/* From the position to points all around it, and back. */
static void fan(int position, int low, int high, int apart) {
    machine.x = machine.y = position;
    put(0110000);
    for (int d = low; d <= high; d += apart) {
        there_and_back(d, low);
        there_and_back(d, high);
        there_and_back(low, d);
        there_and_back(high, d);
    }
    put(0172000);
    close_file(files);
}

static void slopes(const char *detail) {
    (void)detail;
    fan(512, -512, 510, 2);
}

static void corner(const char *detail) {
    (void)detail;
    fan(0, -1020, 1020, 8);
}

static void beyond(const char *detail) {
    (void)detail;
    fan(-3000, -1020, 1020, 8);
}

static void shorts(const char *detail) {
    (void)detail;
    machine.x = machine.y = 512;
    put(0104000);
    for (int dx = -63; dx <= 63; dx += 2)
        for (int dy = -63; dy <= 63; dy += 2) {
            short_vector(dx, dy);
            short_vector(-dx, -dy);
        }
    put(0172000);
    close_file(files);
}

/* An absolute point, and then so many of another mode. */
static void points_of(int mode_word, int from, int apart) {
    put(0114000);
    put(040000 + from);
    put(from);
    put(mode_word);
    for (int i = 0; i < 40; i++) put(040000 + apart * i);
}

static void points(const char *detail) {
    (void)detail;
    put(0174120);
    for (int from = 96; from < 224; from += 4) {
        points_of(0120000, from, 20);
        points_of(0124000, from, 20);
        points_of(0130000, from, 0100 * 2 + 1);
    }
    put(0172000);
    close_file(files);
}

/* Lines of text from the left edge on, each of so many words of two characters; every code has its turn. */
static void text_from(int x, int words) {
    int at = 0;
    for (int y = 0; y < 1000; y += 20) {
        put(0114000);
        put(x);
        put(y);
        put(0100000);
        for (int i = 0; i < words; i++, at += 2) put((32 + (at + 1) % 95) * 0400 + 32 + at % 95);
    }
    put(0172000);
    close_file(files);
}

static void text(const char *detail) {
    (void)detail;
    text_from(0, 31);
}

static void lent_text(const char *detail) {
    text(detail);
    for (size_t i = 0; i < sizeof set; i++) set[i] = (uint8_t)(i * 167 + i / 8 * 29);
    set_bytes = ROADPARSNIP_SET_BYTES;
}

static void cut_text(const char *detail) {
    (void)detail;
    text_from(1010, 1);
}

/* A loop over every kind of instruction but characters, each cheap; the absolute point brings the position back. */
static void mixed(const char *steps) {
    static const uint16_t loop[] = {0164000, 0174120, 0171000, 0176020, 0114000, 040400, 0400,    0124000, 041000, 041010, 0120000, 040600,
                                    0130000, 041303, 040201, 0104000, 041303, 001003, 0110000, 000010, 000020, 0164000, 0160000, 0};
    for (size_t i = 0; i < sizeof loop / sizeof *loop; i++) put(loop[i]);
    close_file(files);
    if (steps) budget = (uint32_t)strtoul(steps, NULL, 10);
}

/* Eight segments of no-ops: after the last word comes the first. */
static void eight_segments(display_file *file) {
    for (int i = 0; i < MOST_WORDS; i++) put(0164000);
    close_file(file);
}

static void no_ops(const char *detail) {
    (void)detail;
    eight_segments(files);
}

static void first_wrong(const char *detail) {
    no_ops(detail);
    files->word[2] = 17;
}

static void last_wrong(const char *detail) {
    no_ops(detail);
    files->word[17] = SEGMENT + 1;
}

static void each_wrong(const char *detail) {
    (void)detail;
    for (int s = 0; s < 8; s++) {
        eight_segments(files + s);
        files[s].word[3 + 2 * s] = SEGMENT + 1;
    }
}

static void from_path(const char *path) {
    FILE *in = path ? fopen(path, "rb") : NULL;
    if (!in) fail("the display file cannot be read");
    files->words = fread(files->word, 2, MOST_WORDS, in);
    fclose(in);
}

static void wrong_image(const char *path) {
    from_path(path);
    image_bytes--;
}

static void wrong_machine(const char *path) {
    from_path(path);
    machine.increment = 64;
}

static void wrong_budget(const char *path) {
    from_path(path);
    budget++;
}

static void wrong_set(const char *path) {
    from_path(path);
    set_bytes = sizeof set;
}

static void not_running(const char *path) {
    from_path(path);
    machine.status = ROADPARSNIP_STOPPED;
}

static void nothing(const char *detail) { (void)detail; }

/* ---- the workloads */

static const struct workload {
    const char *name;
    void (*prepare)(const char *detail);
    void (*turn)(void);
} workloads[] = {
    {"charts", charts, chart_turn},
    {"slopes", slopes, run_turn},
    {"corner", corner, run_turn},
    {"beyond", beyond, run_turn},
    {"shorts", shorts, run_turn},
    {"points", points, run_turn},
    {"text", text, run_turn},
    {"lent-text", lent_text, run_turn},
    {"cut-text", cut_text, run_turn},
    {"clear", nothing, clear},
    {"read", nothing, read_turn},
    {"outside", nothing, outside_turn},
    {"mixed", mixed, run_turn},
    {"no-ops", no_ops, run_turn},
    {"steps", mixed, step_turn},
    {"start", nothing, start_turn},
    {"check", no_ops, check_turn},
    {"first", first_wrong, run_turn},
    {"last", last_wrong, run_turn},
    {"each", each_wrong, each_turn},
    {"file", from_path, run_turn},
    {"image", wrong_image, run_turn},
    {"machine", wrong_machine, run_turn},
    {"budget", wrong_budget, run_turn},
    {"set", wrong_set, run_turn},
    {"status", not_running, run_turn},
};

static const struct workload *chosen;
static unsigned long turns;
static uint64_t nanoseconds;

static uint64_t now(void) {
    struct timespec t;
    clock_gettime(CLOCK_PROCESS_CPUTIME_ID, &t);
    return (uint64_t)t.tv_sec * 1000000000u + (uint64_t)t.tv_nsec;
}

static void all_turns(void) {
    uint64_t began = now();
    for (unsigned long i = 0; i < turns; i++) chosen->turn();
    nanoseconds = now() - began;
}

/* On a stack of their own, all of whose bytes hold a mark, so that the deepest byte written is seen. */
static size_t stack_taken(void) {
    static ucontext_t back, work;
    size_t untouched = 0;
    memset(stack, MARK, sizeof stack);
    if (getcontext(&work)) fail("there is no context");
    work.uc_stack.ss_sp = stack;
    work.uc_stack.ss_size = sizeof stack;
    work.uc_link = &back;
    makecontext(&work, all_turns, 0);
    if (swapcontext(&back, &work)) fail("there is no context");
    while ((unsigned char)stack[untouched] == MARK) untouched++;
    return (size_t)(caller - (stack + untouched));
}

/* With all its leading zeros, and digit by digit here, so that the C library does the same work whatever the number is. */
static void print(uint64_t number, unsigned base, int after) {
    char digits[17];
    for (int i = 16; i > 0; i--, number /= base) digits[i - 1] = "0123456789abcdef"[number % base];
    digits[16] = (char)after;
    fwrite(digits, 1, sizeof digits, stdout);
}

int main(int argc, char **argv) {
    if (argc < 3) fail("call it as bench WORKLOAD TURNS [DETAIL]");
    for (size_t i = 0; i < sizeof workloads / sizeof *workloads; i++)
        if (!strcmp(workloads[i].name, argv[1])) chosen = workloads + i;
    if (!chosen) fail("there is no such workload");
    turns = strtoul(argv[2], NULL, 10);
    machine = roadparsnip_fresh();
    for (size_t i = 0; i < sizeof image; i++) image[i] = (uint8_t)(i * 37 + i / 128);
    chosen->prepare(argv[3]);
    size_t taken = stack_taken();
    for (size_t i = 0; i < sizeof image; i++) add(image[i]);
    print(sum, 16, ' ');
    print(taken, 10, ' ');
    print(nanoseconds, 10, '\n');
    return 0;
}

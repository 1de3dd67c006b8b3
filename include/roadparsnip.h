/* roadparsnip.h: the display processor, for a host program in C. docs/HOST.md is the guide to it.

   You may pass any numbers. A pointer must lead to as many elements as you say; a null pointer goes with length 0. The image
   of one call must not overlap its file or its set. Nothing else has to hold before a call.
   Every call returns. No call allocates memory, or keeps a pointer after it returns. The library has no state, so calls on
   different images may run at the same time. Link with libroadparsnip.a, on x86-64: ./build makes it. */
#ifndef ROADPARSNIP_H
#define ROADPARSNIP_H

#include <stddef.h>
#include <stdint.h>

/* The number of this interface. It is raised whenever a record or a signature below changes. roadparsnip_interface() returns that of
   the library: compare the two once, at the start of your program. */
#define ROADPARSNIP_INTERFACE 3

#ifdef __cplusplus
extern "C" {
#endif

/* What a call answers. */
enum {
    ROADPARSNIP_DONE = 0,           /* done; for a run: the budget is used up, and the machine is still running */
    ROADPARSNIP_STOPPED = 1,        /* stopped */
    ROADPARSNIP_INTERRUPT = 2,      /* stopped, with an interrupt */

    /* Turned away: the image is not touched, the machine comes back as you passed it, and the counts are 0. */
    ROADPARSNIP_BAD_IMAGE = 11,     /* the image does not have ROADPARSNIP_IMAGE_BYTES bytes */
    ROADPARSNIP_SHORT_FILE = 12,    /* the file is shorter than two words, or than its header */
    ROADPARSNIP_BAD_TAG = 13,       /* word 0 is not 1 */
    ROADPARSNIP_BAD_COUNT = 14,     /* the number of segments is not 1 to 8 */
    ROADPARSNIP_BAD_SEGMENT = 15,   /* a segment starts in the header, has more than 4,096 words, or ends past the file */
    ROADPARSNIP_BAD_MACHINE = 16,   /* a field of the machine is out of its range */
    ROADPARSNIP_BAD_BUDGET = 17,    /* the budget is above ROADPARSNIP_MOST_STEPS */
    ROADPARSNIP_BAD_SET = 18,       /* the lent set has neither 0 bytes nor ROADPARSNIP_SET_BYTES */
    ROADPARSNIP_NOT_RUNNING = 28,   /* the machine's status is not 0: start it first */
    ROADPARSNIP_OUTSIDE = 31,       /* the pixel is outside the picture */

    /* An instruction was refused. The steps before it stay done. It set the status and changed nothing else, so the counter is
       the address of its first word. */
    ROADPARSNIP_ODD_ADDRESS = 21,   /* a fetch at an odd address */
    ROADPARSNIP_NO_SEGMENT = 22,    /* a fetch from a segment that is not in the file */
    ROADPARSNIP_NO_PLACE = 23,      /* a fetch past the end of a segment */
    ROADPARSNIP_NOT_BUILT = 24,     /* a code that this processor does not know */
    ROADPARSNIP_NO_MODE_SET = 25,   /* a data word before any mode was set */
    ROADPARSNIP_SECOND_WORD = 26,   /* bit 15 is set in the second word of a long vector or an absolute point */
    ROADPARSNIP_OUT_OF_RANGE = 27,  /* X or Y would leave -4,096 to 4,095 */
    ROADPARSNIP_BAD_CHARACTER = 32  /* a character's code is not 32 to 126: of a word's two, neither is drawn */
};

enum {
    ROADPARSNIP_IMAGE_BYTES = 65536,
    ROADPARSNIP_SIDE = 512,         /* pixels in a row, and rows */
    ROADPARSNIP_MOST_STEPS = 1000000,
    ROADPARSNIP_SET_BYTES = 760,    /* of a character set: eight bytes for each code from 32 to 126 */
    ROADPARSNIP_NO_MODE = 255       /* the mode of a machine in which none was set */
};

/* The image: ROADPARSNIP_IMAGE_BYTES bytes of yours. Pixel (0, 0) is the LOWER LEFT one. x grows to the right, and y UPWARD.
   The first 128 bytes are row 0, the lowest. Pixel (x, y) is in byte 128 * y + x / 4, in bits 2 * (x % 4) and 2 * (x % 4) + 1.
   The file: 16-bit words in your machine's byte order. Lengths count elements: words of a file, bytes of an image or a set.
   The set: the characters of mode 0, ROADPARSNIP_SET_BYTES bytes of yours, or a null pointer and 0 for the built-in ones, which
   docs/CHARACTERS.md shows. Byte 8 * (code - 32) is the top row of a code's cell, and its highest bit the leftmost pixel. */

/* The machine: sixteen bytes without a gap. You keep it and pass it by value. */
typedef struct roadparsnip_machine {
    int32_t x, y;                   /* the position in display units, two to a pixel: -4,096 to 4,095 */
    uint16_t counter;               /* the byte address of the next instruction: any */
    uint8_t mode;                   /* 0 to 6, or ROADPARSNIP_NO_MODE */
    uint8_t value;                  /* the value that lit pixels get: 0 to 3 */
    uint8_t write;                  /* 1: lit items are drawn; 0: they are not */
    uint8_t latch;                  /* 1: a stop interrupts; 0: it does not */
    uint8_t increment;              /* the step of the graph modes, in units: 0 to 63 */
    uint8_t status;                 /* 0 running, 1 or 2 stopped, 21 to 27 or 32 refused */
} roadparsnip_machine;

typedef struct roadparsnip_started {
    roadparsnip_machine machine;
    uint8_t answer;                 /* 0 or 16 */
} roadparsnip_started;

typedef struct roadparsnip_ran {
    roadparsnip_machine machine;
    uint32_t steps, words, stores;  /* those of the completed steps */
    uint8_t answer;
} roadparsnip_ran;

typedef struct roadparsnip_read {
    uint8_t digit;                  /* the pixel's value, 0 to 3; 0 where the answer is not 0 */
    uint8_t answer;                 /* 0, 11 or 31 */
} roadparsnip_read;

/* Tells whether a file can be run. Answers 0, or 12 to 15. */
uint8_t roadparsnip_check(const uint16_t *file, size_t file_words);

/* Makes a machine that is running at address 0. It is at (0, 0), with no mode, value 3, write on, latch off and increment 0. */
roadparsnip_machine roadparsnip_fresh(void);

/* Sets the machine running at an address, even or odd, and keeps its other fields. Answers 0, or 16. */
roadparsnip_started roadparsnip_start(roadparsnip_machine machine, uint16_t address);

/* Runs the file: at most `budget` instructions, until one stops the machine or is refused. Draws into the image. Before the first
   it tests for 11, 12, 13, 14, 12, 15, 16, 17, 18 and 28, in this order. If none holds it answers the status at the end. */
roadparsnip_ran roadparsnip_run(const uint16_t *file, size_t file_words, roadparsnip_machine machine, uint8_t *image, size_t image_bytes,
                                uint32_t budget, const uint8_t *set, size_t set_bytes);

/* Runs one instruction: the same as roadparsnip_run with budget 1. */
roadparsnip_ran roadparsnip_step(const uint16_t *file, size_t file_words, roadparsnip_machine machine, uint8_t *image, size_t image_bytes,
                                 const uint8_t *set, size_t set_bytes);

/* Empties the picture: all pixels become 0. Answers 0, or 11. */
uint8_t roadparsnip_clear(uint8_t *image, size_t image_bytes);

/* Reads the value of pixel (x, y). x and y may be negative. Answers 0, or 11 or 31 with digit 0. */
roadparsnip_read roadparsnip_read_pixel(const uint8_t *image, size_t image_bytes, int32_t x, int32_t y);

/* Returns the interface number that the library was built with. If it is not ROADPARSNIP_INTERFACE, this header belongs to another
   library: make no other call. */
uint32_t roadparsnip_interface(void);

#ifdef __cplusplus
}
#endif

#endif

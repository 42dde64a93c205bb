/* Mokroshel: a lock of modules with priorities, on an image of bytes. The five calls and the turn, for C.
 *
 * The functions are those of crates/desk, which is proved: what each answers and every byte that it leaves. `c/check` holds this header
 * to that source.
 *
 * HOW TO USE IT
 *
 * The image. One buffer holds all: records of n modules (1 to 64), a lock word and a log. It is at least MOKROSHEL_LENGTH(n) bytes, 16n + 268.
 * The last 16n + 268 bytes are the image. Bytes in front of them are the owner's: no call changes them. The image holds no address, so it
 * may be moved, stored and copied between calls; give each call the same length, for the image is found from the buffer's end. Change no byte
 * of it: every call but set-up first checks the whole image and refuses one that is not sound.
 *
 * A module is a number, 1 to n. The loop for module p:
 *
 *   1. mokroshel_begin_acquisition with a priority of 1 to 254, higher is more urgent.
 *   2. mokroshel_step until it answers MOKROSHEL_ADMITTED. MOKROSHEL_WAITING says that p stands in the line and nothing changed: let others
 *      step. Every other answer says that p has more to do: step again when it suits. p is inside.
 *   3. mokroshel_begin_release when p is done inside.
 *   4. mokroshel_step until it answers MOKROSHEL_FINISHED: 3 steps with no successor and 5 with one. p is idle and may begin again.
 *
 * Steps of several modules may fall between one another in any order. The calls themselves may not: one call on an image ends before the next
 * begins. A caller with several threads puts a lock of its own around each call.
 *
 * Turns. A caller that need not choose whom to step lets the desk choose, so that its own loop starves nobody. A marker, which the caller keeps
 * beside the image, holds the module served last; a first marker of n makes module 1 the first.
 *
 *   1. Begin acquisitions and releases as above, whenever it suits.
 *   2. mokroshel_turn steps the first module after the marker around the table, the marker's own module last, that is neither idle nor inside.
 *      It answers as that step does, and marker.last then tells whose step it was. MOKROSHEL_NOBODY says that all are idle or inside: image
 *      and marker stay, and so will it be until something begins.
 *   3. A turn that is refused (5) leaves the marker too: turns meet that module again, and serve nobody behind it, until the log is taken.
 *
 * With one marker that only turns move, a module that is neither idle nor inside over n accepted turns is stepped in one of them, whatever calls
 * fall between: steps and turns may be mixed. And from the begin of a release with somebody behind it in the line, the next one is admitted within
 * 6n - 1 accepted turns; no less would do, where all others wait.
 *
 * The log. Each admission adds one entry, the module's number, to the held log, which has room for 256. Take it with mokroshel_take_log before
 * it is full: while it is, a step or turn that would admit is refused (5) and changes nothing. A buffer of MOKROSHEL_LOG bytes always suffices.
 *
 * What a call says is one number: read it with the four functions at the end of this file, not by hand. A refused call leaves the image, the
 * log buffer and the marker as they were. If several refusals apply, the lowest number is given; but 10 comes before 5, for a wrong marker
 * chooses no module that could be admitted. (9 is a refusal of the program `turns` and of no call.)
 *
 *   1  MOKROSHEL_UNSOUND       The image is unsound: it was never set up, the length is another one, or somebody wrote into it. Nothing in it
 *                              can be trusted: set it up anew.
 *   2  MOKROSHEL_NO_MODULE     The module number is 0 or above n. Correct the caller.
 *   3  MOKROSHEL_NO_PRIORITY   The priority is not 1 to 254. Correct the caller.
 *   4  MOKROSHEL_WRONG_STAGE   Begin acquisition where the module is not idle, begin release where it is not inside, or a step where it is idle or
 *                              inside. Correct the order of the calls.
 *   5  MOKROSHEL_LOG_FULL      The step, or that of the turn, would admit and the log holds 256. Take the log, then step again.
 *   6  MOKROSHEL_LOG_BUFFER    The buffer for the log is shorter than the log. Lend a longer one.
 *   7  MOKROSHEL_BAD_N         Set-up with n not 1 to 64. Correct the caller.
 *   8  MOKROSHEL_SHORT_IMAGE   Set-up with a buffer shorter than 16n + 268. Lend a longer one.
 *  10  MOKROSHEL_BAD_MARKER    The turn marker is not 1 to n. Correct the caller.
 *
 * The calls allocate nothing and keep nothing outside what they are lent: of the C library the archive asks for memcpy alone.
 *
 * Stack. Whatever it is given, a call of the archive for x86-64 takes at most so many bytes, its return address included: a step or a begun
 * release 152, a begun acquisition 168, a turn 184, set-up 16, taking the log 440; taking the log beside what the C library's memcpy takes.
 * The gate fails if one could take more (rust/stack.txt, which has AArch64 too).
 *
 * What a caller owes, since no proof can see it: a pointer is not null, also where its length is 0, and is valid for reading and writing as many
 * bytes as its length says; the pointer to a marker is valid for reading and writing one; the image, the log buffer and the marker do not overlap;
 * nobody else reads or writes any of them during the call. */
#ifndef MOKROSHEL_H
#define MOKROSHEL_H

#include <stddef.h>
#include <stdint.h>

#ifdef __cplusplus
extern "C" {
#endif

/* The length of an image of n modules, and the most entries that the log holds. */
#define MOKROSHEL_LENGTH(n) (16 * (size_t)(n) + 268)
#define MOKROSHEL_LOG 256

/* What an accepted call answers. */
enum {
    MOKROSHEL_DONE = 0,
    MOKROSHEL_WAITING = 1,  /* in the line, nothing changed */
    MOKROSHEL_ADMITTED = 2, /* the module is inside */
    MOKROSHEL_JOINED = 3,   /* the module has joined the line */
    MOKROSHEL_LEFT = 4,     /* the first step of a release: nobody can join behind the module any more */
    MOKROSHEL_FINISHED = 5, /* the release is finished, the module is idle */
    MOKROSHEL_NOBODY = 9    /* a turn alone: nobody can step, nothing changed */
};

/* What a call is refused for. */
enum {
    MOKROSHEL_UNSOUND = 1,
    MOKROSHEL_NO_MODULE = 2,
    MOKROSHEL_NO_PRIORITY = 3,
    MOKROSHEL_WRONG_STAGE = 4,
    MOKROSHEL_LOG_FULL = 5,
    MOKROSHEL_LOG_BUFFER = 6,
    MOKROSHEL_BAD_N = 7,
    MOKROSHEL_SHORT_IMAGE = 8,
    MOKROSHEL_BAD_MARKER = 10
};

/* The turn marker: the module served last. */
struct mokroshel_marker {
    uint32_t last;
};

/* Sets up a fresh table of n modules at the end of the buffer: all idle, the lock free, the log empty. It looks at no earlier byte of the image.
 * Answers MOKROSHEL_DONE; refused 7 or 8. */
uint32_t mokroshel_set_up(uint8_t *image, size_t image_length, uint32_t n);

/* Begins an acquisition by the idle module p. Answers MOKROSHEL_DONE; refused 1, 2, 3 or 4. */
uint32_t mokroshel_begin_acquisition(uint8_t *image, size_t image_length, uint32_t p, uint32_t priority);

/* Begins a release by the module p, which is inside. Answers MOKROSHEL_DONE; refused 1, 2 or 4. */
uint32_t mokroshel_begin_release(uint8_t *image, size_t image_length, uint32_t p);

/* Takes one step for the module p: one access to shared data, the log apart. Answers any but MOKROSHEL_NOBODY, and for MOKROSHEL_ADMITTED the
 * admitted module, which is p; refused 1, 2, 4 or 5. */
uint32_t mokroshel_step(uint8_t *image, size_t image_length, uint32_t p);

/* Takes the log: writes its entries, the earliest first, to the first bytes of the log buffer, keeps the buffer's others, and makes the held log
 * empty. Answers MOKROSHEL_DONE and the length of the log taken; refused 1 or 6. */
uint32_t mokroshel_take_log(uint8_t *image, size_t image_length, uint8_t *log, size_t log_length);

/* Hands out a turn: steps the first module after the marker around the table, the marker's own module last, that is neither idle nor inside, and
 * makes the marker that module. Answers as the step does, or MOKROSHEL_NOBODY; refused 1, 10 or 5, in this order. */
uint32_t mokroshel_turn(uint8_t *image, size_t image_length, struct mokroshel_marker *marker);

/* What a call said, part by part: the parts are those that `unpacked` in crates/desk/specs/Packed.antt reads. That reading is proved to give
 * back all that the call said; the lines of C below are not proved, example.c runs them.
 *
 * Whether the call was refused: 1 or 0. */
static inline int mokroshel_refused(uint32_t said) { return (int)(said >> 31); }

/* The number of the refusal where it was, and of the answer where it was not. */
static inline uint32_t mokroshel_number(uint32_t said) { return said & 255; }

/* The admitted module; 0 where nobody was admitted. */
static inline uint32_t mokroshel_admitted(uint32_t said) { return said >> 8 & 255; }

/* The length of the log taken; 0 where the call was refused or another. */
static inline uint32_t mokroshel_log_length(uint32_t said) { return said >> 16 & 32767; }

#ifdef __cplusplus
}
#endif

#endif

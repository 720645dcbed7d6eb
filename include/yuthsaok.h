/* Yuthsaok: two-party linear algebra with a dealer. Every entry of the archive libhost.a (x86-64 Linux), for C and C++.
 *
 * Two ends hold a private matrix each. In a product session each gets a share, and the shares add to the product modulo q; in a system session
 * the blinder learns the solution z of (L + M) z = x + y; in a determinant session, which is a system's with p = n and without x and y, it learns
 * the determinant of L + M. A dealer hands out a tape for each session beforehand. docs/EMBEDDING.md goes from here to a running app,
 * docs/HOSTS.md has a host's duties in one page, docs/RULES.md sections 11 and 12 have every rule.
 *
 * SLICES. A slice is a pointer to bytes and then its length in bytes. A slice of length 0 may have any pointer, also NULL.
 *   No two slices of one call may overlap. Nothing checks this, and nothing is promised of such a call: with one buffer as line and as result
 *   the line is destroyed, with one pool twice in a dealing a half is lost, and the call answers 0. That some overlap does no harm today is no
 *   promise. The pointers are declared restrict: gcc's -Wrestrict (in -Wall) finds a buffer that is named twice in a call; clang does not.
 * WORDS. Pools, inputs, raw words, scratches, results and runs of days are words of 32 bits, the lowest byte first, at any alignment. Lengths are
 *   in bytes, and of these slices whole words, also where a step has no use of one; slot sizes (`size`), and sizes whose names end in _WORDS or
 *   _words, are in words.
 * LINES. Messages are lines of text: kind, session, tape, q, m, k, p and then residues, in decimal, with commas between and byte 10 at the end.
 * ANSWERS. 0: done. Else the number of the lowest refusal that applies, the other numbers are 0, and no byte that was lent has changed; the one
 *   exception is YUTHSAOK_SINGULAR from the solver's last step of a system, which closes its session and spends its tape.
 * No entry keeps a pointer, allocates, locks, or looks at anything that it was not handed. One takes at most 64 KiB of stack (measured). Calls on
 *   different records, pools, scratches and buffers may run at the same time.
 */
#ifndef YUTHSAOK_H
#define YUTHSAOK_H

#include <stddef.h>
#include <stdint.h>

#if defined(__cplusplus) || defined(__GNUC__)
#define YUTHSAOK_RESTRICT __restrict
#else
#define YUTHSAOK_RESTRICT restrict
#endif

#ifdef __cplusplus
extern "C" {
#endif

/* ---- version */

#define YUTHSAOK_VERSION 300 /* 10,000 * major + 100 * minor + patch; yuthsaok_version() tells the archive's */
#define YUTHSAOK_VERSION_TEXT "0.3.0"

/* ---- numbers that calls take */

enum { /* sorts of tapes */
    YUTHSAOK_PRODUCT = 0,
    YUTHSAOK_SYSTEM = 1 /* p = n + 1: a system; p = n: a determinant */
};

enum { /* ends */
    YUTHSAOK_LEFT = 1,    /* of a product: has X */
    YUTHSAOK_RIGHT = 2,   /* of a product: has Y */
    YUTHSAOK_BLINDER = 3, /* of a system: has M and y, learns z; of a determinant: has M, learns the determinant */
    YUTHSAOK_SOLVER = 4   /* of a system: has L and x; of a determinant: has L */
};

enum { /* statuses: word 0 of a tape */
    YUTHSAOK_EMPTY = 0,
    YUTHSAOK_READY = 1,
    YUTHSAOK_IN_USE = 2,
    YUTHSAOK_SPENT = 3
};

enum { /* where the first words of a tape stand; its matrices follow, and are secret */
    YUTHSAOK_TAPE_STATUS = 0,
    YUTHSAOK_TAPE_NUMBER = 1,
    YUTHSAOK_TAPE_SORT = 2,
    YUTHSAOK_TAPE_Q = 3,
    YUTHSAOK_TAPE_M = 4,
    YUTHSAOK_TAPE_K = 5,
    YUTHSAOK_TAPE_P = 6
};

enum { /* where the first words of a session's record stand; to be read, never to be written */
    YUTHSAOK_RECORD_END = 0,
    YUTHSAOK_RECORD_SESSION = 1,
    YUTHSAOK_RECORD_TAPE = 2,
    YUTHSAOK_RECORD_Q = 3,
    YUTHSAOK_RECORD_M = 4,
    YUTHSAOK_RECORD_K = 5,
    YUTHSAOK_RECORD_P = 6,
    YUTHSAOK_RECORD_DUE = 7 /* the kind of message that the next step takes; 0: no session, or a closed one */
};

enum { /* kinds of messages: the first number of a line */
    YUTHSAOK_KIND_Y1 = 1,    /* right to left, solver to blinder: k*p residues */
    YUTHSAOK_KIND_X1_R1 = 2, /* left to right, blinder to solver: m*k + m*p residues */
    YUTHSAOK_KIND_F = 3,     /* solver to blinder: n*n residues */
    YUTHSAOK_KIND_W_C = 4,   /* blinder to solver: n*n + n residues; of a determinant W alone, n*n */
    YUTHSAOK_KIND_T = 5,     /* of a system, solver to blinder: n residues */
    YUTHSAOK_KIND_D = 6      /* of a determinant, solver to blinder: 1 residue */
};

enum { /* refusals: the lowest that applies is given */
    YUTHSAOK_FORM = 1,      /* form: a message is no line of numbers, or of no known kind */
    YUTHSAOK_MODULUS = 2,   /* modulus: q outside 2 to 2,147,483,647 */
    YUTHSAOK_COMPOSITE = 3, /* composite: q is not prime, in a system or a determinant */
    YUTHSAOK_SIZE = 4,      /* size: a side, count, slot, length or window does not fit; a session or tape number of 0 */
    YUTHSAOK_TURN = 5,      /* turn: not the step or kind of message that is due; the session is closed, or already open */
    YUTHSAOK_MARK = 6,      /* mark: the tape's status is not the one that the call needs */
    YUTHSAOK_STRANGER = 7,  /* stranger: the tape's or the message's numbers are not the session's */
    YUTHSAOK_RESIDUE = 8,   /* residue: a word of q or more; a score out of range; a flag above 1 */
    YUTHSAOK_DRY = 9,       /* dry: too few raw words */
    YUTHSAOK_SINGULAR = 10  /* singular: a matrix that must have an inverse has none */
};

#define YUTHSAOK_REFUSAL_COUNT 10
/* the words by number, as yuthsaok_refusal_word gives them: static const char *const words[] = YUTHSAOK_REFUSAL_WORDS; */
#define YUTHSAOK_REFUSAL_WORDS \
    { "", "form", "modulus", "composite", "size", "turn", "mark", "stranger", "residue", "dry", "singular" }
#define YUTHSAOK_REFUSAL_WORD_BYTES 9 /* the longest word; no zero byte ends it */

/* ---- bounds */

#define YUTHSAOK_LEAST_Q 2
#define YUTHSAOK_MOST_Q 2147483647   /* in a system and a determinant q is prime; this one is */
#define YUTHSAOK_MOST_M 32           /* rows of X, of a product */
#define YUTHSAOK_MOST_K 2048         /* columns of X and rows of Y */
#define YUTHSAOK_MOST_P 32           /* columns of Y */
#define YUTHSAOK_MOST_INPUT 2048     /* residues of X (m*k), and of Y (k*p) */
#define YUTHSAOK_MOST_UNKNOWNS 16    /* n of a system: m = k = n, p = n + 1; and of a determinant: m = k = p = n */
#define YUTHSAOK_MOST_MESSAGE 3072   /* residues of a message */
#define YUTHSAOK_MOST_DAYS 2048      /* of a run of flags or of day shares, and of a window; of one that is moved a day less */
#define YUTHSAOK_MOST_LINE 65536     /* bytes of a line that is read, with its byte 10 */
#define YUTHSAOK_MOST_NUMBER 4294967295u /* session and tape numbers: from 1 to this */

/* ---- sizes in words; arguments are within the bounds */

#define YUTHSAOK_HEADER_WORDS 7 /* of a tape */
#define YUTHSAOK_RECORD_WORDS 280
#define YUTHSAOK_LEFT_WORDS(m, k, p) ((size_t)7 + (size_t)(m) * (size_t)(k) + (size_t)(m) * (size_t)(p))
#define YUTHSAOK_RIGHT_WORDS(m, k, p) ((size_t)7 + (size_t)(k) * (size_t)(p) + (size_t)(m) * (size_t)(p))
#define YUTHSAOK_BLINDER_WORDS(n) ((size_t)7 + (size_t)4 * (size_t)(n) * (size_t)(n) + (size_t)(n))
#define YUTHSAOK_SOLVER_WORDS(n) ((size_t)7 + (size_t)4 * (size_t)(n) * (size_t)(n) + (size_t)2 * (size_t)(n))
#define YUTHSAOK_DETERMINANT_WORDS(n) ((size_t)7 + (size_t)4 * (size_t)(n) * (size_t)(n)) /* the blinder's half, and the solver's */
/* a slot that serves either half, and so both pools of a dealing */
#define YUTHSAOK_PRODUCT_SLOT_WORDS(m, k, p) ((m) > (p) ? YUTHSAOK_LEFT_WORDS(m, k, p) : YUTHSAOK_RIGHT_WORDS(m, k, p))
#define YUTHSAOK_SYSTEM_SLOT_WORDS(n) YUTHSAOK_SOLVER_WORDS(n)
#define YUTHSAOK_DETERMINANT_SLOT_WORDS(n) YUTHSAOK_DETERMINANT_WORDS(n)
#define YUTHSAOK_MOST_SLOT_WORDS 3079
/* of the blinder, in a system and in a determinant; no other end has one */
#define YUTHSAOK_SCRATCH_WORDS(n) ((size_t)2 * (size_t)(n) * (size_t)(n) + (size_t)(n))
#define YUTHSAOK_DETERMINANT_SCRATCH_WORDS(n) ((size_t)2 * (size_t)(n) * (size_t)(n))
#define YUTHSAOK_MOST_SCRATCH_WORDS 528
/* left's and right's result; the blinder's has n words in a system, and 1 in a determinant */
#define YUTHSAOK_SHARE_WORDS(m, p) ((size_t)(m) * (size_t)(p))
#define YUTHSAOK_MOST_RESULT_WORDS 1024

/* residues that are drawn from raw words: by a first step of left or the blinder, and by a dealing */
#define YUTHSAOK_LEFT_COINS(m, p) ((size_t)(m) * (size_t)(p))
#define YUTHSAOK_BLINDER_COINS(n) YUTHSAOK_SCRATCH_WORDS(n)
#define YUTHSAOK_DETERMINANT_COINS(n) YUTHSAOK_DETERMINANT_SCRATCH_WORDS(n)
#define YUTHSAOK_PRODUCT_DRAWS(m, k, p) ((size_t)(m) * (size_t)(k) + (size_t)(k) * (size_t)(p) + (size_t)(m) * (size_t)(p))
#define YUTHSAOK_SYSTEM_DRAWS(n) ((size_t)6 * (size_t)(n) * (size_t)(n) + (size_t)2 * (size_t)(n))
#define YUTHSAOK_DETERMINANT_DRAWS(n) ((size_t)6 * (size_t)(n) * (size_t)(n))
#define YUTHSAOK_MOST_DRAWS 5120
/* raw words to bring for so many residues. Of every three words at least two are kept on the average, whatever q is; with these the chance of
 * YUTHSAOK_DRY is below 2^-60. */
#define YUTHSAOK_RAW_WORDS(residues) ((size_t)2 * (size_t)(residues) + 64)
#define YUTHSAOK_MOST_RAW_WORDS 10304

/* ---- sizes in bytes */

#define YUTHSAOK_RECORD_BYTES 1120
#define YUTHSAOK_REPORT_BYTES 24 /* of the struct below */
/* residues of a message, and room for any line of so many; yuthsaok_line_bytes tells the exact longest line */
#define YUTHSAOK_Y1_RESIDUES(k, p) ((size_t)(k) * (size_t)(p))
#define YUTHSAOK_X1_R1_RESIDUES(m, k, p) ((size_t)(m) * (size_t)(k) + (size_t)(m) * (size_t)(p))
#define YUTHSAOK_F_RESIDUES(n) ((size_t)(n) * (size_t)(n))
#define YUTHSAOK_W_C_RESIDUES(n) ((size_t)(n) * (size_t)(n) + (size_t)(n))
#define YUTHSAOK_T_RESIDUES(n) ((size_t)(n))
#define YUTHSAOK_W_RESIDUES(n) ((size_t)(n) * (size_t)(n)) /* of kind 4 in a determinant */
#define YUTHSAOK_D_RESIDUES 1
#define YUTHSAOK_LINE_BYTES(residues) ((size_t)46 + (size_t)11 * (size_t)(residues))
#define YUTHSAOK_MOST_LINE_WRITTEN 33836 /* bytes of the longest line that an entry writes */

/* ---- answers */

typedef struct yuthsaok_report {
    uint32_t number; /* 0, or the refusal's number */
    size_t read;     /* raw words read, up to the last one needed; 0 at a refusal */
    size_t bytes;    /* bytes of the line that was written; 0 at a refusal and where nothing is sent */
} yuthsaok_report;

typedef struct yuthsaok_residue {
    uint32_t number;
    uint32_t residue;
} yuthsaok_residue;

typedef struct yuthsaok_score {
    uint32_t number;
    int32_t score;
} yuthsaok_score;

typedef struct yuthsaok_share {
    uint32_t number;
    uint32_t share; /* of a window; 0 at a refusal */
} yuthsaok_share;

/* ---- the dealer */

/* Deals a tape into slot `index` of two pools: the left or blinder's half into the first, the right or solver's half into the second. Both slots
 * must be empty or spent: a new pool is zeros. Every accepted dealing has a tape number of its own. */
yuthsaok_report yuthsaok_deal(uint32_t sort, uint8_t *YUTHSAOK_RESTRICT first, size_t first_bytes, uint8_t *YUTHSAOK_RESTRICT second,
                              size_t second_bytes, size_t size, size_t index, uint32_t tape, uint32_t q, uint32_t m, uint32_t k, uint32_t p,
                              const uint8_t *YUTHSAOK_RESTRICT words, size_t words_bytes);

/* ---- a session */

/* The first step of an end. `session` is a record of YUTHSAOK_RECORD_BYTES, of zeros or closed; `number` is the session's, `tape` the tape's. The
 * input is X, Y, a system's matrix with its vector behind it, or a determinant's matrix. Left and the blinder bring raw words and take the other
 * end's line as `message`; right and the solver look at neither. `line` gets the line to send, `result` left's share. Only the blinder has a
 * `scratch`, which may hold anything before this call. */
yuthsaok_report yuthsaok_first(uint8_t *YUTHSAOK_RESTRICT session, size_t session_bytes, uint32_t end, uint8_t *YUTHSAOK_RESTRICT pool,
                               size_t pool_bytes, size_t size, size_t index, uint32_t number, uint32_t tape, uint32_t q, uint32_t m, uint32_t k,
                               uint32_t p, const uint8_t *YUTHSAOK_RESTRICT input, size_t input_bytes, const uint8_t *YUTHSAOK_RESTRICT words,
                               size_t words_bytes, uint8_t *YUTHSAOK_RESTRICT scratch, size_t scratch_bytes,
                               const uint8_t *YUTHSAOK_RESTRICT message, size_t message_bytes, uint8_t *YUTHSAOK_RESTRICT line, size_t line_bytes,
                               uint8_t *YUTHSAOK_RESTRICT result, size_t result_bytes);

/* The step that is due, with the line that has arrived. `result` gets right's share, the blinder's z or its determinant, with the session's last
 * step. The blinder lends the same scratch to every step and to a drop; nothing checks that it is the same. */
yuthsaok_report yuthsaok_next(uint8_t *YUTHSAOK_RESTRICT session, size_t session_bytes, uint8_t *YUTHSAOK_RESTRICT pool, size_t pool_bytes,
                              size_t size, size_t index, uint8_t *YUTHSAOK_RESTRICT scratch, size_t scratch_bytes,
                              const uint8_t *YUTHSAOK_RESTRICT message, size_t message_bytes, uint8_t *YUTHSAOK_RESTRICT line, size_t line_bytes,
                              uint8_t *YUTHSAOK_RESTRICT result, size_t result_bytes);

/* Gives an open session up: it closes, its tape is spent, the blinder's scratch is zeroed. Nothing is sent. */
yuthsaok_report yuthsaok_drop(uint8_t *YUTHSAOK_RESTRICT session, size_t session_bytes, uint8_t *YUTHSAOK_RESTRICT pool, size_t pool_bytes,
                              size_t size, size_t index, uint8_t *YUTHSAOK_RESTRICT scratch, size_t scratch_bytes);

/* ---- sizes; 0 for sides out of bounds, and for an end, sort or kind that is none */

/* The archive's version, as YUTHSAOK_VERSION. */
uint32_t yuthsaok_version(void);

/* Words of a session's record. */
size_t yuthsaok_record_words(void);

/* Words of an end's half of a tape. */
size_t yuthsaok_tape_words(uint32_t end, uint32_t m, uint32_t k, uint32_t p);

/* Words of an end's scratch. */
size_t yuthsaok_scratch_words(uint32_t end, uint32_t m, uint32_t k, uint32_t p);

/* Bytes of the longest line of a kind, with its byte 10. */
size_t yuthsaok_line_bytes(uint32_t kind, uint32_t q, uint32_t m, uint32_t k, uint32_t p);

/* Residues that an end's first step draws. */
size_t yuthsaok_coin_count(uint32_t end, uint32_t m, uint32_t k, uint32_t p);

/* Residues that a dealing draws. */
size_t yuthsaok_deal_count(uint32_t sort, uint32_t m, uint32_t k, uint32_t p);

/* ---- tests and conversions before a session */

/* 1 where n is prime, else 0. */
uint32_t yuthsaok_is_prime(uint32_t n);

/* 0 where the n by n matrix of residues has an inverse modulo the prime q; else a refusal's number. */
uint32_t yuthsaok_has_inverse(uint32_t q, uint32_t n, const uint8_t *YUTHSAOK_RESTRICT matrix, size_t matrix_bytes);

/* A signed score, from -(q-1)/2 to q/2, as a residue. */
yuthsaok_residue yuthsaok_to_residue(uint32_t q, int32_t score);

/* A residue as a signed score. */
yuthsaok_score yuthsaok_to_score(uint32_t q, uint32_t residue);

/* The word of a refusal's number at the slice's start, and its length; 0 for another number or too short a slice. */
size_t yuthsaok_refusal_word(uint32_t number, uint8_t *YUTHSAOK_RESTRICT word, size_t word_bytes);

/* ---- windows of days
 *
 * Both ends have a flag for each day, 0 or 1, and play a product session of 1 by 1 by 1 a day, all with one q and each with a tape of its own. The
 * results of an end are its day shares: `shares` is a run of them, a word a day, of 1 to YUTHSAOK_MOST_DAYS days, counted from 0. Both ends' runs
 * have the same days in the same places. Then the two shares of a window add modulo q to the number of its days that both flags mark; w is below q,
 * so that this residue is the number itself, and a sum above w shows that something is amiss. Nothing else can notice it.
 * Refused: YUTHSAOK_MODULUS for q; YUTHSAOK_SIZE for a run of another length, a window that is not in the run, a w of 0 or not below q;
 * YUTHSAOK_RESIDUE for a word of q or more among those that the call looks at. */

/* The share of the window of `w` days from day `first` on: the sum of its day shares modulo q. It looks at these days alone. */
yuthsaok_share yuthsaok_window_share(uint32_t q, const uint8_t *YUTHSAOK_RESTRICT shares, size_t shares_bytes, size_t first, size_t w);

/* The share of the window of `w` days from day `first` + 1 on, which must be in the run. `first` is the first day of the window before it, and `share`
 * that window's share: whether it is, nothing can tell. It looks at two days alone, whatever w is: `first`, which leaves, and `first` + w, which is
 * new. */
yuthsaok_share yuthsaok_next_window(uint32_t q, const uint8_t *YUTHSAOK_RESTRICT shares, size_t shares_bytes, size_t first, size_t w,
                                    uint32_t share);

/* 0 where a run of flags has 1 to YUTHSAOK_MOST_DAYS days and no flag above 1, as both ends' must; else YUTHSAOK_SIZE or YUTHSAOK_RESIDUE. An end
 * can ask this of its own flags alone. */
uint32_t yuthsaok_flags_fit(const uint8_t *YUTHSAOK_RESTRICT flags, size_t flags_bytes);

#ifdef __cplusplus
}
#endif

#endif

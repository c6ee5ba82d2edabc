/*
 * val.h - the van ledger: shared costs of groups, kept on eight replicas.
 *
 * Link with libval.a. The ABI is x86-64 System V.
 *
 * Ownership. The caller owns every buffer, of bytes, lines or numbers. The
 * library keeps nothing between calls, allocates nothing and has no global
 * state, so calls on different buffers may run at the same time. Each pointer
 * must be valid for the length passed with it (homes: eight bytes) and must
 * not be null, even with a length of 0. The buffers of one call must not
 * overlap: to merge an image with itself, pass a copy. Bytes need no
 * alignment; lines must be aligned as struct val_line is, lent numbers as
 * uint64_t and int64_t are.
 *
 * Answers. Every call answers VAL_OK or the number of the first condition that
 * stopped it, in the order in which it is written down below. A refused call
 * changes no byte, no line and no lent number. A buffer of the wrong length is
 * refused, not read.
 *
 * Numbers are little-endian. Money is whole cents. A user is 0 to 7, a replica
 * (van) 0 to 7, a group (crew) 0 to 15, an expense (cost) 0 to 511.
 */
#ifndef VAL_H
#define VAL_H

#include <stddef.h>
#include <stdint.h>

#ifdef __cplusplus
extern "C" {
#endif

/* ---- sizes ------------------------------------------------------------ */

#define VAL_IMAGE_SIZE 21808   /* bytes of an image, of format version 3 */
#define VAL_IMAGE_SIZE_1 20752 /* bytes of one of version 1, see val_raise */
#define VAL_IMAGE_SIZE_2 20784 /* bytes of one of version 2, see val_raise */
#define VAL_ACTION_SIZE 40     /* bytes of an action record */
#define VAL_EXPENSE_SIZE 42    /* bytes of an expense record in an image */
#define VAL_USERS 8            /* also the number of lines of a statement and
                                  of numbers of a month */
#define VAL_GROUPS 16
#define VAL_EXPENSES 512
#define VAL_PAYMENTS 64        /* numbers of a list of who pays whom */
#define VAL_BALANCES 128       /* numbers of all groups' balances */

/*
 * ---- the image --------------------------------------------------------
 *
 *   0 to 2     the letters VAL
 *   3, 4       format version, 3
 *   5          replica
 *   6 to 13    home replica of users 0 to 7
 *   14, 15     zero
 *   16         16 groups of 18 bytes:
 *       0      eight membership counters, 16 bits each. Odd: member. Even:
 *              none. Above zero: ever a member. A group is absent when all
 *              eight are zero.
 *       16     rule, 16 bits, see below; 0 when the group is absent
 *   304        512 expenses of 42 bytes:
 *       0      payer, or 255 for no expense (then 41 zero bytes)
 *       1      group, or 255 for none
 *       2      deleted, 0 or 1
 *       3      acknowledgements, bit u for user u
 *       4      version, 32 bits
 *       8      eight shares, 32 bits each
 *       40     day, 16 bits, see below; 65,535 when undated
 *
 * A present expense c is sound when the payer's home is c / 64; its shares
 * total 1 to 1,000,000,000; only users with a positive share have a bit; with
 * no group, no bit but the payer's; with a group, the payer and everyone with
 * a positive share has a counter above zero there; and its day is 0 to 36,524
 * or 65,535.
 *
 * Format version 2 has no days: its expenses are of 40 bytes. Version 1 has no
 * rules either: its groups are of 16 bytes, its expenses begin at 272. Only
 * val_raise takes such images.
 */
#define VAL_NONE 255 /* payer: no expense; group: none */

/*
 * ---- days and months --------------------------------------------------
 *
 * Days count from 1 January 2000, day 0, to 31 December 2099. Months are
 * numbered from January 2000, month 0, to December 2099, by the Gregorian
 * calendar as in ISO 8601.
 *
 * An expense has the day that it was entered with or, since it was changed, the
 * one that the last change named; what else is done to it leaves its day alone.
 * Expenses raised from an older version are undated: they count in statements,
 * and in no month, until a change names a day.
 */
#define VAL_LAST_DAY 36524
#define VAL_UNDATED 65535
#define VAL_MONTHS 1200

/*
 * ---- the rules --------------------------------------------------------
 *
 * By its rule, which stays as it was founded, a group's gifts go to its
 * members:
 *
 *   equal      in equal parts; of the cents left over one each, lower user
 *              number first.
 *   use        by use. A member's weight is the number of the group's valid
 *              expenses in which it has a positive share. The part is gifts *
 *              weight / total weight, rounded down; of the cents left over
 *              one each to the largest remainders, lower user number first.
 *              Where no member has weight, in equal parts.
 *
 * An expense is valid when it is in the group, not deleted, and every positive
 * share is acknowledged. Under rule 2 a share of 500 cents or fewer counts as
 * acknowledged when validity and VAL_SHARE_PENDING are worked out; 501 must be
 * acknowledged. No bit is set by this: kinds 9 and 10 and merges read the
 * stored bits.
 */
#define VAL_RULE_EQUAL 1
#define VAL_RULE_USE 2

/*
 * ---- the action record ------------------------------------------------
 *
 *   0          kind, see below
 *   1          actor
 *   2          other user           (kinds 2, 10)
 *   3          group                (kinds 1, 2, 3, 5, 6)
 *   4, 5       expense              (kinds 4 to 10)
 *   6, 7       rule, 1 or 2         (kind 1)
 *              day, 0 to 36,524     (kinds 4, 7)
 *   8 to 39    eight shares         (kinds 4, 7)
 *
 * Fields that a kind does not use are zero. Each kind is stopped by 1 to 7 and
 * then by the numbers beside it, in that order.
 */
enum val_kind {
    VAL_FOUND = 1,       /* found a group           8, 9 */
    VAL_ADD = 2,         /* add a member            10, 11, 12 */
    VAL_LEAVE = 3,       /* leave                   10, 11, 13, 34, 14 */
    VAL_ENTER = 4,       /* enter an expense        15, 16, 19 */
    VAL_PUT_IN = 5,      /* put into a group        10, 17, 11, 18, 21, 23, 27 */
    VAL_TAKE_OUT = 6,    /* take out of a group     10, 17, 11, 22, 18, 27 */
    VAL_CHANGE = 7,      /* change shares and day   17, 18, 19, 24, 23, 27 */
    VAL_DELETE = 8,      /* delete                  17, 18, 24, 11, 27 */
    VAL_ACKNOWLEDGE = 9, /* acknowledge             17, 24, 22, 11, 25, 26 */
    VAL_ABSORB = 10      /* absorb other's share    29, 17, 24, 18, 25, 26, 22,
                                                    11, 28, 27 */
};

/* ---- answers ---------------------------------------------------------- */

enum val_answer {
    VAL_OK = 0, /* done */

    /* the image: of every call that takes one */
    VAL_BAD_LENGTH = 1,  /* image is not 21,808 bytes (to raise: neither
                            20,752 nor 20,784) */
    VAL_BAD_MARK = 2,    /* bytes 0 to 2 are not VAL */
    VAL_BAD_VERSION = 3, /* format version is not 3 (to raise: 1 or 2, by the
                            length) */
    VAL_BAD_HEADER = 4,  /* van or a home above 7, bytes 14, 15 not zero, a
                            present crew's rule not 1 or 2, or an absent one's
                            not 0 */
    VAL_BAD_EXPENSE = 5, /* any unsound cost */

    /* actions; VAL_GROUP_ABSENT also answers a statement, a list of who pays
       whom and a month */
    VAL_BAD_ACTION = 6,             /* length, kind or a field is wrong, the
                                       rule of a founding and the day of an
                                       expense too */
    VAL_NOT_HOME = 7,               /* actor's home is another van */
    VAL_GROUP_NOT_OWNED = 8,        /* crew div 2 isn't this van */
    VAL_GROUP_PRESENT = 9,          /* crew present */
    VAL_GROUP_ABSENT = 10,          /* crew absent */
    VAL_NOT_MEMBER = 11,            /* actor no member */
    VAL_ALREADY_MEMBER = 12,        /* other already a member */
    VAL_OWES = 13,                  /* actor's raw balance below zero */
    VAL_COUNTER_FULL = 14,          /* counter is 65,535 */
    VAL_EXPENSE_NOT_OWNED = 15,     /* cost div 64 isn't this van */
    VAL_EXPENSE_PRESENT = 16,       /* cost present */
    VAL_EXPENSE_ABSENT = 17,        /* cost absent */
    VAL_NOT_PAYER = 18,             /* actor isn't the payer */
    VAL_BAD_TOTAL = 19,             /* total outside 1 to 1,000,000,000 */
                                    /* 20 is not used, and stays so */
    VAL_HAS_GROUP = 21,             /* has a crew */
    VAL_NOT_IN_GROUP = 22,          /* not in that crew; no crew */
    VAL_SHARE_OF_NON_MEMBER = 23,   /* a positive share of a non-member */
    VAL_DELETED = 24,               /* deleted */
    VAL_NO_SHARE = 25,              /* actor's (10: other's) share is zero */
    VAL_ALREADY_ACKNOWLEDGED = 26,  /* already acknowledged (10: by other), by
                                       the stored bit */
    VAL_VERSION_FULL = 27,          /* version is 4,294,967,295 */
    VAL_STILL_MEMBER = 28,          /* other is a member */
    VAL_SAME_USER = 29,             /* other is the actor */

    /* merge */
    VAL_HOMES_DIFFER = 30, /* home tables differ */
    VAL_CONFLICT = 31,     /* a cost with equal versions differs in more than
                              acknowledgements, in its day for one, or a crew
                              present on both sides in its rule */

    /* statement, list of who pays whom, month, and all groups' balances */
    VAL_BAD_LINES = 32, /* not eight lines lent; a list: not 64 numbers; a
                           month: not eight numbers; balances: not 128 */

    /* list of who pays whom */
    VAL_GROUP_EMPTY = 33, /* crew has no member */

    /* actions again: leaving */
    VAL_SHARE_PENDING = 34, /* actor has a positive share that counts as
                               acknowledged, see the rules, in a cost of that
                               crew that is neither deleted nor valid */

    /* month */
    VAL_BAD_MONTH = 35, /* month above 1199 */

    /* merge: 1 to 5 for the other image */
    VAL_OTHER_BAD_LENGTH = 41,
    VAL_OTHER_BAD_MARK = 42,
    VAL_OTHER_BAD_VERSION = 43,
    VAL_OTHER_BAD_HEADER = 44,
    VAL_OTHER_BAD_EXPENSE = 45
};

/* ---- calls ------------------------------------------------------------ */

/* Is this an image? VAL_OK, or 1 to 5. */
uint32_t val_check(const uint8_t *image, size_t image_len);

/*
 * Writes the empty image of a replica: no groups, no expenses. Whatever the
 * buffer held is not read. VAL_OK, 1, or 4 (van or a home above 7).
 */
uint32_t val_empty(uint8_t *image, size_t image_len, uint64_t van,
                   const uint8_t homes[VAL_USERS]);

/* Applies one action record to the image. VAL_OK, 1 to 29 or 34. */
uint32_t val_act(uint8_t *image, size_t image_len,
                 const uint8_t *action, size_t action_len);

/*
 * Merges another replica's image into one's own, which keeps its header. A
 * group on one side only is taken over with its rule, an expense with its day.
 * VAL_OK, 1 to 5 for own, 41 to 45 for other, 30 or 31.
 */
uint32_t val_merge(uint8_t *own, size_t own_len,
                   const uint8_t *other, size_t other_len);

struct val_totals {
    uint32_t answer;   /* VAL_OK, 1 to 5, 10 or 32; with a refusal the */
    uint32_t members;  /* other three are zero */
    uint32_t expenses; /* valid ones in the group */
    uint64_t gifts;    /* total */
};

struct val_line {
    uint16_t counter; /* membership counter; 0: never a member */
    int64_t raw;      /* valid amounts paid less valid shares held */
    uint64_t gift;    /* raw of a non-member with raw above zero, else 0 */
    uint64_t part;    /* of the gifts, for a member: by the group's rule */
    int64_t balance;  /* raw - gift + part */
};

/*
 * The statement of one group. Fills eight lines, line u for user u;
 * lines_len counts lines and must be 8. A group number above 15 is absent.
 */
struct val_totals val_statement(const uint8_t *image, size_t image_len,
                                uint64_t group,
                                struct val_line *lines, size_t lines_len);

/*
 * The list of who pays whom in one group. By the statement's balances, the
 * lowest-numbered user who owes pays the lowest-numbered one who is owed the
 * smaller of the two sums, until nobody owes. Fills 64 numbers: number
 * 8 * i + j is what user i pays user j; cents_len counts numbers and must be
 * 64. Row i sums to what user i owes, column j to what user j is owed. Where k
 * balances are not zero there are at most k - 1 payments, and none where k is
 * 0. A group number above 15 is absent. VAL_OK, 1 to 5, 10, 32 or 33.
 */
uint32_t val_payments(const uint8_t *image, size_t image_len, uint64_t group,
                      uint64_t *cents, size_t cents_len);

/*
 * A month of one group: each user's raw, as the statement has it, from those of
 * the group's valid expenses that are dated from the month's first day to its
 * last, both included. Undated expenses are in no month. Fills eight numbers,
 * number u for user u; raws_len counts numbers and must be 8. They sum to zero.
 * A group number above 15 is absent. VAL_OK, 1 to 5, 10, 32 or 35.
 */
uint32_t val_month(const uint8_t *image, size_t image_len, uint64_t group,
                   uint64_t month, int64_t *raws, size_t raws_len);

/*
 * The balances of all groups, from a single walk through the expenses. Fills
 * 128 numbers: number 8 * g + u is the balance that the statement of group g
 * has for user u, and 0 where the group is absent; balances_len counts numbers
 * and must be 128. VAL_OK, 1 to 5 or 32.
 */
uint32_t val_balances(const uint8_t *image, size_t image_len,
                      int64_t *balances, size_t balances_len);

struct val_part {
    size_t at;  /* where the part begins in the image */
    size_t len; /* VAL_EXPENSE_SIZE, or 0 for no part (then at is 0 too) */
};

/*
 * The place of an expense's own 42 bytes in the caller's image. There is no
 * part just when the image check fails, the number is above 511 or the
 * expense is absent.
 */
struct val_part val_lookup(const uint8_t *image, size_t image_len,
                           uint64_t expense);

/*
 * Raises an image of format version 1 or 2, told apart by old_len: writes the
 * image of version 3 with the same replica, homes, counters and expenses.
 * Groups of version 2 keep their rules, present ones of version 1 come under
 * rule 1; present expenses are undated. old_len must be VAL_IMAGE_SIZE_1 or
 * VAL_IMAGE_SIZE_2, and image_len VAL_IMAGE_SIZE. Whatever the buffer held is
 * not read. VAL_OK, 1 for the length of either, or 2 to 5 for old, as its
 * version has them.
 */
uint32_t val_raise(const uint8_t *old, size_t old_len,
                   uint8_t *image, size_t image_len);

#ifdef __cplusplus
}
#endif

#endif /* VAL_H */

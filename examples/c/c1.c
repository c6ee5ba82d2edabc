/*
 * Example C1 of document 01: two replicas, eight actions and merges, one
 * statement. Who pays whom (document 02, A1) is listed before and after user 0
 * leaves: the gift that user 0 leaves behind clears the debt of user 1. Before
 * user 1 has acknowledged, the same leave is refused (document 02, A2): user
 * 0's own share in the expense is acknowledged and still pending. The expense
 * is of 29 February 2000 (document 02, A6): it is in that month, not in March.
 *
 * Then an image of format version 1 (document 02, A3): it is refused, raised
 * and merged, and its group is under rule 1. A group founded on what was raised
 * is under rule 2.
 *
 * Then one of format version 2 (document 02, A6): its group keeps its rule, and
 * its expense has no day and is in no month, until it is changed. Merged into
 * van 0's image, it leaves one group of four with balances that are not zero,
 * as one call for all groups shows (document 02, A8).
 */
#include <inttypes.h>
#include <stdio.h>
#include <stdlib.h>
#include <string.h>

#include "val.h"

_Static_assert(sizeof(struct val_totals) == 24, "val_totals");
_Static_assert(sizeof(struct val_line) == 40, "val_line");
_Static_assert(sizeof(struct val_part) == 16, "val_part");

static uint8_t van0[VAL_IMAGE_SIZE];
static uint8_t van1[VAL_IMAGE_SIZE];
static uint8_t van2[VAL_IMAGE_SIZE];
static uint8_t van3[VAL_IMAGE_SIZE];
static uint8_t old_van2[VAL_IMAGE_SIZE_1];
static uint8_t old_van3[VAL_IMAGE_SIZE_2];

static const uint8_t homes[VAL_USERS] = {0, 1, 2, 3, 4, 5, 6, 7};

enum { FEBRUARY_2000 = 1, MARCH_2000 = 2, LEAP_DAY_2000 = 59 };

/* Stops the program unless a call answered VAL_OK. */
static void want_ok(const char *call, uint32_t answer)
{
    if (answer != VAL_OK) {
        fprintf(stderr, "%s: answer %" PRIu32 "\n", call, answer);
        exit(1);
    }
}

/* A user's share in an action or an expense: both have them from byte 8 on. */
static void put_share(uint8_t *record, int user, uint32_t cents)
{
    for (int i = 0; i < 4; i++)
        record[8 + 4 * user + i] = (uint8_t)(cents >> (8 * i));
}

static void put_day(uint8_t *action, uint16_t day)
{
    action[6] = (uint8_t)day;
    action[7] = (uint8_t)(day >> 8);
}

static void print_statement(const uint8_t *image, size_t len)
{
    want_ok("check", val_check(image, len));
    printf("van %d\n", image[5]);
    for (uint64_t group = 0; group < VAL_GROUPS; group++) {
        struct val_line lines[VAL_USERS];
        struct val_totals totals =
            val_statement(image, len, group, lines, VAL_USERS);
        if (totals.answer == VAL_GROUP_ABSENT)
            continue;
        want_ok("statement", totals.answer);
        printf("crew %" PRIu64 " members %" PRIu32 " costs %" PRIu32
               " gifts %" PRIu64 "\n",
               group, totals.members, totals.expenses, totals.gifts);
        for (int user = 0; user < VAL_USERS; user++) {
            const struct val_line *line = &lines[user];
            if (line->counter == 0)
                continue; /* never a member */
            printf("user %d counter %" PRIu16 " raw %" PRId64
                   " gift %" PRIu64 " part %" PRIu64 " balance %" PRId64 "\n",
                   user, line->counter, line->raw, line->gift, line->part,
                   line->balance);
        }
    }
}

/* One line for each payment, row by row. */
static void print_payments(const char *moment, const uint8_t *image, size_t len,
                           uint64_t group)
{
    uint64_t cents[VAL_PAYMENTS];
    int payments = 0;
    want_ok("payments", val_payments(image, len, group, cents, VAL_PAYMENTS));
    for (int i = 0; i < VAL_PAYMENTS; i++) {
        if (cents[i] == 0)
            continue;
        printf("%s: user %d pays user %d %" PRIu64 "\n", moment, i / VAL_USERS,
               i % VAL_USERS, cents[i]);
        payments++;
    }
    if (payments == 0)
        printf("%s: nobody pays\n", moment);
}

/* One line for each user who paid or holds something in that month. */
static void print_month(const uint8_t *image, size_t len, uint64_t group,
                        uint64_t month)
{
    int64_t raws[VAL_USERS];
    int users = 0;
    want_ok("month", val_month(image, len, group, month, raws, VAL_USERS));
    for (int user = 0; user < VAL_USERS; user++) {
        if (raws[user] == 0)
            continue;
        printf("crew %" PRIu64 " month %" PRIu64 ": user %d raw %" PRId64 "\n",
               group, month, user, raws[user]);
        users++;
    }
    if (users == 0)
        printf("crew %" PRIu64 " month %" PRIu64 ": nothing\n", group, month);
}

/* One line for each balance that is not zero, of all groups. */
static void print_balances(const uint8_t *image, size_t len)
{
    int64_t balances[VAL_BALANCES];
    want_ok("balances", val_balances(image, len, balances, VAL_BALANCES));
    for (int i = 0; i < VAL_BALANCES; i++) {
        if (balances[i] != 0)
            printf("all crews: crew %d user %d balance %" PRId64 "\n",
                   i / VAL_USERS, i % VAL_USERS, balances[i]);
    }
}

/* An image of an older version: 40 bytes an expense, the first at expenses. */
static void write_old_image(uint8_t *old, size_t len, uint8_t version,
                            uint8_t van, size_t expenses)
{
    memset(old, 0, len);
    memcpy(old, "VAL", 3);
    old[3] = version;
    old[5] = van;
    memcpy(old + 6, homes, VAL_USERS);
    for (int expense = 0; expense < VAL_EXPENSES; expense++)
        old[expenses + 40 * (size_t)expense] = VAL_NONE;
}

/* What version 1 has left on van 2: user 2 is in group 4. */
static void write_old_van2(void)
{
    write_old_image(old_van2, sizeof old_van2, 1, 2, 272);
    old_van2[16 + 16 * 4 + 2 * 2] = 1;
}

/*
 * What version 2 has left on van 3: users 0 and 3 are in group 6, which is
 * under rule 2. User 3 paid expense 192 for user 0, whose share of 450 counts
 * as acknowledged.
 */
static void write_old_van3(void)
{
    const uint8_t head[8] = {3, 6, 0, 0, 1};
    uint8_t *group = old_van3 + 16 + 18 * 6;
    uint8_t *expense = old_van3 + 304 + 40 * 192;

    write_old_image(old_van3, sizeof old_van3, 2, 3, 304);
    group[2 * 0] = 1;
    group[2 * 3] = 1;
    group[16] = VAL_RULE_USE;
    memcpy(expense, head, sizeof head);
    put_share(expense, 0, 450);
}

static void print_rule(const uint8_t *image, int group)
{
    const uint8_t *rule = image + 16 + 18 * group + 16;
    printf("crew %d rule %d\n", group, rule[0] + 256 * rule[1]);
}

static void print_day(const uint8_t *image, size_t len, uint64_t expense)
{
    struct val_part part = val_lookup(image, len, expense);
    const uint8_t *day = image + part.at + 40;
    if (part.len != 0)
        printf("cost %" PRIu64 " day %d\n", expense, day[0] + 256 * day[1]);
}

static void play_c1(void)
{
    /* byte 0 kind, 1 actor, 2 other, 3 group, 4 and 5 expense, 6 and 7 rule or
       day, 8.. shares */
    const uint8_t found[VAL_ACTION_SIZE] = {VAL_FOUND, 0, [6] = VAL_RULE_EQUAL};
    const uint8_t add[VAL_ACTION_SIZE] = {VAL_ADD, 0, 1};
    uint8_t enter[VAL_ACTION_SIZE] = {VAL_ENTER, 0};
    const uint8_t put_in[VAL_ACTION_SIZE] = {VAL_PUT_IN, 0};
    const uint8_t acknowledge[VAL_ACTION_SIZE] = {VAL_ACKNOWLEDGE, 1};
    const uint8_t leave[VAL_ACTION_SIZE] = {VAL_LEAVE, 0};
    put_share(enter, 0, 300);
    put_share(enter, 1, 600);
    put_day(enter, VAL_UNDATED);

    want_ok("empty 0", val_empty(van0, sizeof van0, 0, homes));
    want_ok("empty 1", val_empty(van1, sizeof van1, 1, homes));

    want_ok("found", val_act(van0, sizeof van0, found, sizeof found));
    want_ok("add", val_act(van0, sizeof van0, add, sizeof add));
    printf("enter without a day: refused %" PRIu32 "\n",
           val_act(van0, sizeof van0, enter, sizeof enter));
    put_day(enter, LEAP_DAY_2000);
    want_ok("enter", val_act(van0, sizeof van0, enter, sizeof enter));
    want_ok("put in", val_act(van0, sizeof van0, put_in, sizeof put_in));
    printf("leave before user 1 acknowledges: refused %" PRIu32 "\n",
           val_act(van0, sizeof van0, leave, sizeof leave));
    want_ok("merge 1", val_merge(van1, sizeof van1, van0, sizeof van0));
    want_ok("acknowledge",
            val_act(van1, sizeof van1, acknowledge, sizeof acknowledge));
    want_ok("merge 0", val_merge(van0, sizeof van0, van1, sizeof van1));
    print_payments("before the leave", van0, sizeof van0, 0);
    want_ok("leave", val_act(van0, sizeof van0, leave, sizeof leave));

    print_statement(van0, sizeof van0);
    print_payments("after the leave", van0, sizeof van0, 0);
    print_month(van0, sizeof van0, 0, FEBRUARY_2000);
    print_month(van0, sizeof van0, 0, MARCH_2000);
}

static void raise_version_1(void)
{
    const uint8_t found[VAL_ACTION_SIZE] = {VAL_FOUND, 2, 0, 5,
                                            [6] = VAL_RULE_USE};

    write_old_van2();
    printf("image of version 1: refused %" PRIu32 "\n",
           val_check(old_van2, sizeof old_van2));
    want_ok("raise", val_raise(old_van2, sizeof old_van2, van2, sizeof van2));
    want_ok("found", val_act(van2, sizeof van2, found, sizeof found));
    want_ok("merge 2", val_merge(van0, sizeof van0, van2, sizeof van2));
    print_statement(van0, sizeof van0);
    print_rule(van0, 4);
    print_rule(van0, 5);
}

static void raise_version_2(void)
{
    uint8_t change[VAL_ACTION_SIZE] = {VAL_CHANGE, 3, [4] = 192};
    put_share(change, 0, 450);
    put_day(change, LEAP_DAY_2000);

    write_old_van3();
    printf("image of version 2: refused %" PRIu32 "\n",
           val_check(old_van3, sizeof old_van3));
    want_ok("raise", val_raise(old_van3, sizeof old_van3, van3, sizeof van3));
    print_statement(van3, sizeof van3);
    print_rule(van3, 6);
    print_day(van3, sizeof van3, 192);
    print_month(van3, sizeof van3, 6, FEBRUARY_2000);
    want_ok("change", val_act(van3, sizeof van3, change, sizeof change));
    print_day(van3, sizeof van3, 192);
    print_month(van3, sizeof van3, 6, FEBRUARY_2000);
    want_ok("merge 3", val_merge(van0, sizeof van0, van3, sizeof van3));
    print_balances(van0, sizeof van0);
}

int main(void)
{
    play_c1();
    raise_version_1();
    raise_version_2();
    return 0;
}

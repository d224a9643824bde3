/* Contenders of the library, of three sessions at three servers in memory with one history: their outputs, that no more hold than may, that tokens
 * rise, that none holds beside names of another family, and that no place is left, wherever the connection is cut. */
#include "dirwolleu.h"
#include "dirwolleu_bench.h"
#include "expect.h"

#include <string.h>

enum { SIDES = 3, TIMEOUT_MS = 9000, TICKET = 7, LISTING = 8, TREE = 9, SUBJECT = 10, MOST_MEMBERS = 64, MOST_ROUNDS = 4000, REQUESTS = 12, ROOM = 1 << 16 };

#define FIRST_NODE (1ULL << 63) /* the first tickets of trees' nodes, and of contenders' calls */
#define FIRST_OWN (3ULL << 62)

static const char DIRECTORY[] = "/locks/job", GUIDS[SIDES][33] = {
    "00112233445566778899aabbccddeeff", "ffeeddccbbaa99887766554433221100", "0f1e2d3c4b5a69788796a5b4c3d2e1f0"};

struct side {
    dw_session session;
    dw_bench bench;
    enum dw_kind told; /* the last output about its contender */
    int64_t token;     /* by which it holds, or 0 */
    size_t names;      /* of its last listing */
    bool is_answered;
};

static struct side sides[SIDES];
static uint64_t now_ms;
static int64_t last_token;
static int most = 1; /* hold at once */
static int left; /* after this number of requests the connection of the first side is cut, if it is not below 0 */
static uint8_t room[ROOM];
static uint64_t members[MOST_MEMBERS], last_member; /* of the tree of the first side, by rising tickets */
static size_t member_count;

static void expect_ok(enum dw_result result)
{
    EXPECT_NUMBER(DW_OK, result);
}

/* Each holder has a greater token than all before it, and no more hold than may, by the outputs and by the look-ups. */
static void note_holder(struct side *side, int64_t token)
{
    int64_t shown = 0;
    int told = 1, held = 0;
    for (int i = 0; i < SIDES; i++) {
        told += &sides[i] != side && sides[i].token != 0;
        held += dw_session_held(&sides[i].session, TICKET, &shown) == DW_OK;
    }
    EXPECT(token > last_token && told <= most && held <= most);
    expect_ok(dw_session_held(&side->session, TICKET, &shown));
    EXPECT_NUMBER(token, shown);
    last_token = side->token = token;
}

static void note(struct side *side, const dw_output *output)
{
    side->told = output->kind;
    EXPECT_NUMBER(TICKET, output->ticket);
    switch (output->kind) {
    case DW_KIND_HOLDS: note_holder(side, output->zxid); break;
    case DW_KIND_PAUSES: EXPECT_NUMBER(DW_REFUSAL_MIXED_NAMES, output->refusal); /* fall through */
    default: side->token = 0; break;
    }
}

/* A member is added by a ticket that no other had and no call of a contender has, and one that is removed was there. */
static void note_member(const dw_output *output)
{
    size_t place = 0;
    EXPECT_NUMBER(TREE, (int)output->tree);
    if (output->kind == DW_KIND_MEMBER_ADDED) {
        EXPECT(output->ticket == TREE ? member_count == 0 : output->ticket >= FIRST_NODE && output->ticket > last_member);
        EXPECT(output->ticket < FIRST_OWN && member_count < MOST_MEMBERS);
        last_member = output->ticket == TREE ? last_member : output->ticket;
        members[member_count++] = output->ticket;
        return;
    }
    while (place < member_count && members[place] != output->ticket) {
        place++;
    }
    EXPECT(place < member_count);
    members[place] = members[--member_count];
}

/* Does what the outputs say. Returns whether there were any. */
static bool do_all(struct side *side)
{
    dw_output output;
    bool is_dialled = false, was_said = false;
    while (dw_session_next(&side->session, &output) == DW_OK) {
        was_said = true;
        if (output.kind == DW_KIND_DIAL) {
            is_dialled = true;
        } else if (output.kind == DW_KIND_HANG_UP) {
            dw_bench_cut(&side->bench);
        } else if (output.kind == DW_KIND_SEND) {
            dw_bench_hear(&side->bench, room, dw_session_copy(&side->session, 0, room, sizeof room));
        } else if (output.kind == DW_KIND_ANSWER) {
            EXPECT_NUMBER(LISTING, output.ticket);
            side->names = output.names;
            side->is_answered = true;
        } else if (output.kind == DW_KIND_MEMBER_ADDED || output.kind == DW_KIND_MEMBER_REMOVED) {
            note_member(&output);
        } else if (output.kind >= DW_KIND_WAITS) {
            note(side, &output);
        }
    }
    if (is_dialled) {
        dw_bench_connect(&side->bench, 1);
        expect_ok(dw_session_opened(&side->session, now_ms));
    }
    return was_said;
}

/* The server of one side answers one request, and the others learn its changes. Returns whether there was one. */
static bool serve_one(struct side *side)
{
    size_t count = 0;
    bool is_first = side == &sides[0];
    if (dw_bench_process(&side->bench, now_ms) == DW_BENCH_OK && is_first && left > 0 && --left == 0) {
        left = -1;
        dw_bench_cut(&side->bench);
        expect_ok(dw_session_cut(&side->session, now_ms));
        return true;
    }
    for (int i = 0; i < SIDES; i++) {
        while (&sides[i] != side && dw_bench_learn(&sides[i].bench, &side->bench) == DW_BENCH_OK) {
        }
        for (int j = 0; j < REQUESTS; j++) {
            dw_bench_take(&sides[i].bench, 1);
        }
    }
    dw_bench_say(&side->bench, room, sizeof room, &count);
    if (count > 0) {
        expect_ok(dw_session_bytes(&side->session, now_ms, room, count));
    }
    return count > 0;
}

/* The next moment at which something is due has come. */
static void let_pass(void)
{
    uint64_t soonest = UINT64_MAX, due = 0;
    for (int i = 0; i < SIDES; i++) {
        if (dw_session_deadline(&sides[i].session, &due) == DW_OK && due < soonest) {
            soonest = due;
        }
    }
    EXPECT(soonest < UINT64_MAX);
    now_ms = soonest > now_ms ? soonest : now_ms;
    for (int i = 0; i < SIDES; i++) {
        expect_ok(dw_session_moment(&sides[i].session, now_ms));
    }
}

/* Goes on until a side's contender has this output, or with 0 until the side's listing is answered. */
static void go_on_until(struct side *side, int kind)
{
    for (int i = 0; kind == 0 ? !side->is_answered : (int)side->told != kind; i++) {
        bool goes_on = false;
        EXPECT(i < MOST_ROUNDS);
        for (int j = 0; j < SIDES; j++) {
            goes_on = do_all(&sides[j]) || goes_on;
            goes_on = serve_one(&sides[j]) || goes_on;
        }
        if (!goes_on) {
            let_pass();
        }
    }
}

/* Contends, and goes on until the contender has this output. */
static void contend(struct side *side, uint32_t naming, int kind)
{
    side->told = (enum dw_kind)0;
    do_all(side);
    expect_ok(dw_session_contend(&side->session, now_ms, TICKET, DIRECTORY, strlen(DIRECTORY), naming, GUIDS[side - sides], 32,
                                 (const uint8_t *)"", 0, true, false, NULL, 0));
    go_on_until(side, kind);
}

static void give_up(struct side *side)
{
    do_all(side);
    expect_ok(dw_session_give_up(&side->session, now_ms, TICKET));
    go_on_until(side, DW_KIND_GIVEN_UP);
}

static size_t count_names(struct side *side)
{
    side->is_answered = false;
    do_all(side);
    expect_ok(dw_session_get_children(&side->session, now_ms, LISTING, UINT64_MAX, DIRECTORY, strlen(DIRECTORY), false));
    go_on_until(side, 0);
    return side->names;
}

/* Another session deletes the place of a side. */
static void delete_place(struct side *side)
{
    char place[256];
    size_t length = 0;
    expect_ok(dw_session_place(&side->session, TICKET, place, sizeof place, &length));
    EXPECT(strncmp(place, DIRECTORY, strlen(DIRECTORY)) == 0 && strstr(place, GUIDS[side - sides]) != NULL);
    side->told = (enum dw_kind)0;
    EXPECT_NUMBER(DW_BENCH_OK, dw_bench_change(&side->bench, now_ms, DW_BENCH_DELETED, 0, place, length, (const uint8_t *)"", 0));
}

/* ---- The cases. ---- */

/* One contender waits for the other, and holds once the place before it is gone; one that has lost its place contends on. */
static void hand_over(void)
{
    contend(&sides[0], DW_NAMING_KAZOO, DW_KIND_HOLDS);
    contend(&sides[1], DW_NAMING_KAZOO, DW_KIND_WAITS);
    EXPECT_NUMBER(2, count_names(&sides[1]));
    delete_place(&sides[0]);
    go_on_until(&sides[0], DW_KIND_WAITS);
    go_on_until(&sides[1], DW_KIND_HOLDS);
    give_up(&sides[1]);
    go_on_until(&sides[0], DW_KIND_HOLDS);
    give_up(&sides[0]);
    EXPECT_NUMBER(0, count_names(&sides[1]));
}

/* The connection is cut after each number of requests, also when the answer to the create of the place is lost with it. */
static void cut_at_each_request(void)
{
    for (int at = 1; at <= REQUESTS; at++) {
        left = at;
        contend(&sides[0], DW_NAMING_CURATOR_LOCK, DW_KIND_HOLDS);
        EXPECT_NUMBER(1, count_names(&sides[1]));
        give_up(&sides[0]);
        EXPECT_NUMBER(0, count_names(&sides[1]));
    }
    left = -1;
}

/* Two readers hold together. */
static void read_together(void)
{
    int64_t token = 0;
    most = 2;
    for (int i = 0; i < 2; i++) {
        contend(&sides[i], DW_NAMING_KAZOO_READER, DW_KIND_HOLDS);
    }
    for (int i = 0; i < 2; i++) {
        EXPECT(sides[i].token > 0);
        give_up(&sides[i]);
        EXPECT_NUMBER(DW_NONE, dw_session_held(&sides[i].session, TICKET, &token));
    }
    most = 1;
}

/* Two of three hold, and the third one holds once either of them has left. */
static void lease(void)
{
    most = 2;
    for (int leaver = 0; leaver < 2; leaver++) {
        for (int i = 0; i < SIDES; i++) {
            contend(&sides[i], DW_NAMING_LEASES + 2, i < most ? DW_KIND_HOLDS : DW_KIND_WAITS);
        }
        give_up(&sides[leaver]);
        go_on_until(&sides[2], DW_KIND_HOLDS);
        give_up(&sides[2]);
        give_up(&sides[1 - leaver]);
        EXPECT_NUMBER(0, count_names(&sides[2]));
    }
    most = 1;
}

/* Beside a name of another family no contender begins to hold. One that gives up then leaves no place; one that goes on holds once that name is
 * gone. */
static void mix(uint32_t naming, uint32_t other)
{
    contend(&sides[0], naming, DW_KIND_HOLDS);
    contend(&sides[1], other, DW_KIND_PAUSES);
    EXPECT_NUMBER(2, count_names(&sides[2]));
    give_up(&sides[1]);
    EXPECT_NUMBER(1, count_names(&sides[2]));
    EXPECT_NUMBER(DW_KIND_HOLDS, sides[0].told);
    contend(&sides[1], other, DW_KIND_PAUSES);
    contend(&sides[2], other, DW_KIND_PAUSES);
    give_up(&sides[0]);
    go_on_until(&sides[1], DW_KIND_HOLDS);
    go_on_until(&sides[2], DW_KIND_WAITS);
    give_up(&sides[1]);
    go_on_until(&sides[2], DW_KIND_HOLDS);
    give_up(&sides[2]);
}

static void mix_names(void)
{
    static const uint32_t families[] = {DW_NAMING_KAZOO, DW_NAMING_CURATOR_LOCK, DW_NAMING_CURATOR_LATCH};
    for (int i = 0; i < 3; i++) {
        mix(families[i], families[(i + 1) % 3]);
        mix(families[(i + 1) % 3], families[i]);
    }
    mix(DW_NAMING_KAZOO_READER, DW_NAMING_CURATOR_WRITER);
    mix(DW_NAMING_CURATOR_READER, DW_NAMING_KAZOO);
}

/* A session that calls, follows a subject and a tree with its place, and holds, meets the premise of `held_for_life`: its tickets are below those of
 * contenders' calls. The members that were added for the tree are those that are removed with it. */
static void follow_beside(void)
{
    do_all(&sides[0]);
    expect_ok(dw_session_follow_tree(&sides[0].session, now_ms, TREE, "/locks", 6, MOST_MEMBERS));
    do_all(&sides[0]);
    expect_ok(dw_session_follow_names(&sides[0].session, now_ms, SUBJECT, DIRECTORY, strlen(DIRECTORY)));
    contend(&sides[0], DW_NAMING_KAZOO, DW_KIND_HOLDS);
    contend(&sides[1], DW_NAMING_KAZOO, DW_KIND_WAITS);
    EXPECT_NUMBER(2, count_names(&sides[0]));
    EXPECT(member_count > 4);
    give_up(&sides[0]);
    go_on_until(&sides[1], DW_KIND_HOLDS);
    EXPECT_NUMBER(1, count_names(&sides[0]));
    give_up(&sides[1]);
    do_all(&sides[0]);
    expect_ok(dw_session_unfollow_tree(&sides[0].session, now_ms, TREE));
    do_all(&sides[0]);
    EXPECT_NUMBER(0, (int)member_count);
    expect_ok(dw_session_unfollow(&sides[0].session, now_ms, SUBJECT));
}

static void refuse(void)
{
    dw_session none = {0};
    int64_t token = 1;
    size_t count = 1;
    dw_session *session = &sides[0].session;
    const uint8_t *nothing = (const uint8_t *)"";
    EXPECT_NUMBER(DW_CLOSED, dw_session_contend(&none, now_ms, TICKET, "/l", 2, 0, "a", 1, nothing, 0, true, false, NULL, 0));
    EXPECT_NUMBER(DW_CLOSED, dw_session_give_up(&none, now_ms, TICKET));
    EXPECT_NUMBER(DW_CLOSED, dw_session_held(&none, TICKET, &token));
    EXPECT(token == 0);
    EXPECT_NUMBER(DW_CLOSED, dw_session_place(&none, TICKET, (char *)room, sizeof room, &count));
    EXPECT(count == 0);
    EXPECT_NUMBER(DW_NO_SUCH_MODE, dw_session_contend(session, now_ms, TICKET, "/l", 2, 6, "a", 1, nothing, 0, true, false, NULL, 0));
    EXPECT_NUMBER(DW_NOT_TEXT, dw_session_contend(session, now_ms, TICKET, "/l", 2, 0, "\xff", 1, nothing, 0, true, false, NULL, 0));
    EXPECT_NUMBER(DW_NOT_PATH, dw_session_contend(session, now_ms, TICKET, "l", 1, 0, "a", 1, nothing, 0, true, false, NULL, 0));
    EXPECT_NUMBER(DW_NOT_PATH, dw_session_contend(session, now_ms, TICKET, "/l", 2, 0, "a/b", 3, nothing, 0, true, false, NULL, 0));
    static const uint8_t acl[] = {0, 0, 0, 1, 0, 0, 0, 31, 0, 0, 0, 4, 'a', 'u', 't', 'h', 0, 0, 0, 0, 0}; /* and a byte too many */
    EXPECT_NUMBER(DW_NOT_ACL, dw_session_contend(session, now_ms, TICKET, "/l", 2, 0, "a", 1, nothing, 0, true, false, acl, sizeof acl));
    EXPECT_NUMBER(DW_NOT_ACL, dw_session_contend(session, now_ms, TICKET, "/l", 2, 0, "a", 1, nothing, 0, true, false, acl, sizeof acl - 2));
    EXPECT_NUMBER(DW_NOT_ACL, dw_session_contend(session, now_ms, TICKET, "/l", 2, 0, "a", 1, nothing, 0, true, false, (const uint8_t *)"\0\0\0\0", 4));
    EXPECT_NUMBER(DW_NONE, dw_session_held(session, TICKET, &token));
    EXPECT_NUMBER(DW_NONE, dw_session_place(session, TICKET, (char *)room, sizeof room, &count));
}

/* A contender ends with its session. */
static void close_session(void)
{
    contend(&sides[0], DW_NAMING_KAZOO, DW_KIND_HOLDS);
    expect_ok(dw_session_close(&sides[0].session, now_ms, LISTING, UINT64_MAX));
    go_on_until(&sides[0], DW_KIND_GIVEN_UP);
}

int main(void)
{
    left = -1;
    for (int i = 0; i < SIDES; i++) {
        EXPECT_NUMBER(DW_BENCH_OK, dw_bench_open(&sides[i].bench, 70 + i));
        expect_ok(dw_session_open(&sides[i].session, TIMEOUT_MS, 1, 42 + (uint64_t)i));
        expect_ok(dw_session_moment(&sides[i].session, now_ms));
    }
    refuse();
    hand_over();
    cut_at_each_request();
    read_together();
    lease();
    mix_names();
    follow_beside();
    close_session();
    for (int i = 0; i < SIDES; i++) {
        dw_session_free(&sides[i].session);
        dw_bench_close(&sides[i].bench);
    }
    return 0;
}

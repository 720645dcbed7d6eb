#include "end.h"

#include <stdio.h>
#include <string.h>
#include <unistd.h>

#include "basics.h"
#include "channel.h"
#include "days.h"
#include "pool.h"
#include "store.h"

/* How far a session is. From ASKED on something may have been sent. */
enum { FRESH, DROPPED, ASKED, SHARED, KNOWN };

enum { VERSION = 1 };

/* The file "session": all that the steps have left, in one file, so that none of it is ever older than the rest. */
struct session {
    uint32_t version, number, stage, index, share, answer, line_bytes;
    uint8_t record[YUTHSAOK_RECORD_BYTES], slot[SLOT_BYTES], line[LINE_BYTES];
};

struct end {
    uint32_t role;
    const char *folder;
    struct session session;
    struct pool pool;
    struct channel channel;
    uint8_t input[INPUT_BYTES];
    int has_told_line, has_told_share, has_heard; /* over this socket */
};

static const char *name_of(const struct end *e) {
    return e->role == YUTHSAOK_LEFT ? "left" : "right";
}

/* Brings the session to the disk. What is sent later can then be sent again, and no step is made twice. */
static void commit(const struct end *e) {
    store_save(e->folder, "session", &e->session, sizeof e->session);
}

/* Copies the session's slot into the pool, unless another tape lies there by now. Done again at every start. */
static void settle(struct end *e) {
    const struct session *s = &e->session;
    if (s->stage == FRESH || pool_tape(&e->pool, s->index) != get_word(s->record, YUTHSAOK_RECORD_TAPE)) return;
    pool_write(&e->pool, s->index, s->slot);
}

static size_t share_line(char *line, size_t room, uint32_t share) {
    return (size_t)snprintf(line, room, "share,%u\n", share);
}

/* Sends what the session has and what was not yet sent over this socket. */
static void tell(struct end *e) {
    char share[32];
    if (e->session.stage >= ASKED && !e->has_told_line) {
        e->has_told_line = 1;
        channel_send(e->session.line, e->session.line_bytes);
    }
    if (e->session.stage >= SHARED && !e->has_told_share) {
        e->has_told_share = 1;
        channel_send(share, share_line(share, sizeof share, e->session.share));
        channel_close();
    }
}

/* The end of every step. All rests on this order: first the session's file, then the pool, and then the socket. */
static void conclude(struct end *e, uint32_t stage) {
    e->session.stage = stage;
    commit(e);
    settle(e);
    tell(e);
}

/* Puts the tape of the last call beside the record. */
static void keep_slot(struct end *e, size_t index) {
    e->session.index = (uint32_t)index;
    memcpy(e->session.slot, pool_slot(&e->pool, index), SLOT_BYTES);
}

/* Gives an open session up. */
static void drop(struct end *e) {
    struct session *s = &e->session;
    if (get_word(s->record, YUTHSAOK_RECORD_DUE) == 0) return;
    yuthsaok_report report =
        yuthsaok_drop(s->record, sizeof s->record, e->pool.bytes, POOL_BYTES, SLOT_WORDS, s->index, NULL, 0);
    if (report.number != 0) fail_refused(name_of(e), report.number);
    keep_slot(e, s->index);
    conclude(e, DROPPED);
}

static void must(struct end *e, yuthsaok_report report) {
    if (report.number == 0) return;
    drop(e);
    fail_refused(name_of(e), report.number);
}

/* Right's first step: the first tape that is ready, and the line of kind 1. */
static void ask(struct end *e) {
    struct session *s = &e->session;
    size_t index = pool_ready(&e->pool);
    if (index == SLOTS) fail("right has no tape that is ready");
    yuthsaok_report report =
        yuthsaok_first(s->record, sizeof s->record, YUTHSAOK_RIGHT, e->pool.bytes, POOL_BYTES, SLOT_WORDS, index,
                       s->number, pool_tape(&e->pool, index), Q, 1, DAYS, 1, e->input, INPUT_BYTES, NULL, 0, NULL, 0,
                       NULL, 0, s->line, LINE_BYTES, NULL, 0);
    must(e, report);
    s->line_bytes = (uint32_t)report.bytes;
    keep_slot(e, index);
    conclude(e, ASKED);
}

/* Left's one step: on the tape that right's line names, if it is ready here; the engine refuses any other. */
static void reply(struct end *e, const uint8_t *message, size_t bytes) {
    struct session *s = &e->session;
    uint8_t words[4 * YUTHSAOK_RAW_WORDS(YUTHSAOK_LEFT_COINS(1, 1))], share[4 * YUTHSAOK_SHARE_WORDS(1, 1)];
    uint32_t tape = line_number(message, bytes, 2);
    size_t index = pool_find(&e->pool, tape);
    random_bytes(words, sizeof words);
    yuthsaok_report report =
        yuthsaok_first(s->record, sizeof s->record, YUTHSAOK_LEFT, e->pool.bytes, POOL_BYTES, SLOT_WORDS, index,
                       s->number, tape, Q, 1, DAYS, 1, e->input, INPUT_BYTES, words, sizeof words, NULL, 0, message,
                       bytes, s->line, LINE_BYTES, share, sizeof share);
    must(e, report);
    s->line_bytes = (uint32_t)report.bytes;
    s->share = get_word(share, 0);
    keep_slot(e, index);
    conclude(e, SHARED);
}

/* Right's last step. It has no line, and the first one stays in the session. */
static void finish(struct end *e, const uint8_t *message, size_t bytes) {
    struct session *s = &e->session;
    uint8_t share[4 * YUTHSAOK_SHARE_WORDS(1, 1)];
    must(e, yuthsaok_next(s->record, sizeof s->record, e->pool.bytes, POOL_BYTES, SLOT_WORDS, s->index, NULL, 0,
                          message, bytes, NULL, 0, share, sizeof share));
    s->share = get_word(share, 0);
    keep_slot(e, s->index);
    conclude(e, SHARED);
}

/* A line that was taken comes again after a crash: it has the kind, session and tape of the one that was taken. */
static void recognise(const struct end *e, const uint8_t *line, size_t bytes) {
    const uint8_t *record = e->session.record;
    uint32_t kind = e->role == YUTHSAOK_LEFT ? YUTHSAOK_KIND_Y1 : YUTHSAOK_KIND_X1_R1;
    int is_same = line_number(line, bytes, 1) == get_word(record, YUTHSAOK_RECORD_SESSION) &&
                  line_number(line, bytes, 2) == get_word(record, YUTHSAOK_RECORD_TAPE);
    if (line_number(line, bytes, 0) != kind || !is_same) fail("%s got a line of another session", name_of(e));
}

static void take_share(struct end *e, const uint8_t *line, size_t bytes) {
    char same[32];
    uint32_t share = line_number(line, bytes, 1), answer = (e->session.share + share) % Q;
    int is_one = share < Q && share_line(same, sizeof same, share) == bytes && memcmp(same, line, bytes) == 0;
    if (!is_one || !e->has_heard || e->session.stage < SHARED) fail("%s got a share that it cannot use", name_of(e));
    if (e->session.stage == KNOWN && e->session.answer != answer) fail("%s got another share than before", name_of(e));
    if (e->session.stage == KNOWN) return;
    e->session.answer = answer;
    conclude(e, KNOWN);
}

static void take(struct end *e, const uint8_t *line, size_t bytes) {
    if (line[0] == 's') {
        take_share(e, line, bytes);
        return;
    }
    if (e->session.stage >= SHARED) {
        recognise(e, line, bytes);
    } else if (e->role == YUTHSAOK_LEFT) {
        reply(e, line, bytes);
    } else {
        finish(e, line, bytes);
    }
    e->has_heard = 1;
}

/* A session of a new number; the one before is given up where it is open. Nothing is committed before a first step. */
static void renew(struct end *e, uint32_t number) {
    struct session *s = &e->session;
    if (number < s->number) fail("%s has come to session %u", name_of(e), s->number);
    drop(e);
    memset(s, 0, sizeof *s);
    s->version = VERSION;
    s->number = number;
}

/* Finds the end as its last process left it. */
static void wake(struct end *e, uint32_t number) {
    struct session *s = &e->session;
    store_lock(e->folder);
    if (!pool_load(&e->pool, e->folder)) fail("%s has no tapes", name_of(e));
    int is_there = store_load(e->folder, "session", s, sizeof *s);
    int is_sane = s->index < SLOTS && s->line_bytes <= LINE_BYTES;
    if (is_there && (s->version != VERSION || !is_sane)) fail("the session of %s is damaged", name_of(e));
    settle(e);
    if (s->number != number) renew(e, number);
    if (s->stage == DROPPED) fail("%s dropped session %u: ask for another number", name_of(e), number);
}

int end_run(uint32_t role, const char *folder, const char *days, uint32_t number) {
    static struct end e;
    const uint8_t *line;
    size_t bytes;
    e.role = role;
    e.folder = folder;
    days_read(days, e.input);
    channel_open();
    wake(&e, number);
    if (role == YUTHSAOK_RIGHT && e.session.stage == FRESH) ask(&e);
    tell(&e);
    while ((bytes = channel_line(&e.channel, &line)) > 0) take(&e, line, bytes);
    if (e.session.stage != KNOWN) return PEER_LOST;
    char answer[16];
    int length = snprintf(answer, sizeof answer, "%u\n", e.session.answer);
    return write(STDOUT_FILENO, answer, (size_t)length) == length ? ANSWERED : FAILED;
}

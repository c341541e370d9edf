/* Refuses each allocation of the calls of an acceptor and of a client in turn: refused_logins FILE, whose rows expect_logins.py writes. A call whose allocation is
   refused answers KRB_MEMORY, tells nothing and touches nothing, or answers as it does else; no block is left. So do those of a negotiation. */
#include "allocations.h"
#include "login_calls.h"
#include "negotiating.h"
#include <stdio.h>
#include <stdlib.h>
#include <string.h>

static long refusals, most, of_memory[CHANNEL_BINDINGS + 1];

static void try_call(const struct login *it) {
    struct octets whole = room_of(LOGIN_ROOM);
    begin_allocations(0, 0);
    struct login_answer right = login_called(it, &whole);
    struct allocations all = end_allocations();
    EXPECT(all.held == 0, "%s: %ld blocks are left", it->name, all.held);
    most = all.requests > most ? all.requests : most;
    for (int on = 0; on < 2; on++)
        for (long at = 1; at <= all.requests; at++) {
            struct octets room = room_of(LOGIN_ROOM);
            begin_allocations(at, on);
            struct login_answer answer = login_called(it, &room);
            struct allocations seen = end_allocations();
            int is_memory = answer.status == KRB_MEMORY && answer.size == 0 && is_told_nothing(it, &answer) && is_untouched(&room, 0);
            int is_same = is_same_answer(&answer, &right) && !memcmp(room.at, whole.at, room.count);
            EXPECT((is_memory || is_same) && seen.held == 0, "%s, request %ld of %ld refused: status %u, rule %u, size %zu, %ld blocks left", it->name, at, all.requests,
                    answer.status, rule_of(it, &answer), answer.size, seen.held);
            of_memory[it->kind] += answer.status == KRB_MEMORY;
            refusals++;
            drop(&room);
        }
    drop(&whole);
}

/* What a call of a negotiation answers: 0 makes an offer, 1 tells what one asks, 2 answers one, 3 answers a reply. */
struct negotiated {
    krb_status status;
    krb_negotiation side;
    krb_negotiation_question question;
    krb_negotiation_reply reply;
    size_t offer_size, size;
    uint8_t out[MESSAGE_ROOM];
};

static struct negotiated negotiated_by(int call, long at, int on, struct allocations *seen) {
    static const krb_mechanism mechanisms[] = {{0, 1, 0}, {1, 1, 0}};
    const struct said said = {KRB_NEG_STATE_REQUEST_MIC, CHOICE_FIRST, 1, 1, 0};
    struct negotiated it;
    memset(&it, 0, sizeof it);
    bool accepts = call == 1 || call == 2;
    it.side = (krb_negotiation){.role = accepts ? KRB_ACCEPTOR : KRB_INITIATOR, .stage = call == 3 ? KRB_STAGE_OFFERED : KRB_STAGE_BEGINS, .asks = accepts};
    struct message message = message_of(&said, accepts);
    begin_allocations(at, on);
    if (call == 0)
        it.status = krb_negotiation_begin(&it.side, NAMES, sizeof NAMES, mechanisms, 2, 0, KRB_PROGRESS_CONTINUES, TOKEN, sizeof TOKEN, &it.offer_size, it.out, sizeof it.out, &it.size);
    else if (call == 1)
        it.status = krb_negotiation_take(&it.side, NAMES, sizeof NAMES, mechanisms, 2, NULL, 0, message.octets, message.size, &it.question, it.out, sizeof it.out, &it.size);
    else
        it.status = krb_negotiation_answer(&it.side, NAMES, sizeof NAMES, mechanisms, 2, LIST, sizeof LIST, message.octets, message.size, 0, KRB_PROGRESS_ENDS, NULL, 0, NULL, 0,
                                           OWN_MIC, sizeof OWN_MIC, &it.reply, it.out, sizeof it.out, &it.size);
    *seen = end_allocations();
    return it;
}

/* Each allocation of each of them. */
static void try_negotiation(void) {
    for (int call = 0; call < 4; call++) {
        struct allocations all, seen;
        long of_negotiation = 0;
        struct negotiated right = negotiated_by(call, 0, 0, &all), before = right;
        EXPECT(right.status == KRB_DONE && right.size > 0 && all.held == 0, "call %d of a negotiation: status %u, %ld blocks left", call, right.status, all.held);
        memset(&before, 0, sizeof before);
        before.status = KRB_MEMORY;
        before.side = (krb_negotiation){.role = call == 1 || call == 2 ? KRB_ACCEPTOR : KRB_INITIATOR, .stage = call == 3 ? KRB_STAGE_OFFERED : KRB_STAGE_BEGINS, .asks = call == 1 || call == 2};
        for (int on = 0; on < 2; on++)
            for (long at = 1; at <= all.requests; at++) {
                struct negotiated it = negotiated_by(call, at, on, &seen);
                bool is_memory = !memcmp(&it, &before, sizeof it), is_same = !memcmp(&it, &right, sizeof it);
                EXPECT((is_memory || is_same) && seen.held == 0, "call %d of a negotiation, request %ld of %ld refused: status %u, %ld blocks left", call, at, all.requests, it.status, seen.held);
                of_negotiation += is_memory;
                refusals++;
            }
        EXPECT(of_negotiation > 0, "no allocation of call %d of a negotiation was refused", call);
    }
}

int main(int count, char **words) {
    FILE *file = count == 2 ? fopen(words[1], "r") : NULL;
    char *row[LOGIN_COLUMNS];
    struct login it, made;
    if (!file) die("usage: refused_logins FILE");
    while (next_row(file, row, LOGIN_COLUMNS)) {
        if (!login_of(row, &it)) die("a table has a call that is none");
        try_call(&it);
        if (it.kind == ACCEPT && it.acceptor.options == KRB_ACCEPT_WHOLE_EVER) {
            it.acceptor.options |= KRB_ACCEPT_SUBKEY;
            try_call(&it);
            it.acceptor.options = KRB_ACCEPT_WHOLE_EVER;
        }
        if (login_made(row, &it, &made)) {
            try_call(&made);
            drop_login(&made);
        }
        drop_login(&it);
    }
    fclose(file);
    try_negotiation();
    for (int kind = ACCEPT; kind < CHANNEL_BINDINGS; kind++) EXPECT(of_memory[kind] > 0, "no allocation of kind %d was refused", kind);
    printf("%ld allocations were refused, at most %ld a call\n", refusals, most);
    return counted();
}

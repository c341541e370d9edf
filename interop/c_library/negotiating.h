/* Messages of a negotiation by what they say, and the calls that take and answer them as octets. Two mechanisms are known: numbers 0 and 1, of the names FIRST and SECOND. */
#ifndef NEGOTIATING_H
#define NEGOTIATING_H

#include "krb.h"
#include <stdbool.h>
#include <string.h>

enum { CHOICE_ABSENT, CHOICE_UNKNOWN, CHOICE_FIRST, CHOICE_OTHER };
enum { MIC_ABSENT, MIC_HOLDS, MIC_WRONG };
enum { MESSAGE_ROOM = 256 };

static const uint8_t NAMES[] = {0x30, 0x0e, 0x30, 0x05, 0x06, 0x03, 0x2a, 0x03, 0x01, 0x30, 0x05, 0x06, 0x03, 0x2a, 0x03, 0x02};
static const uint8_t LIST[] = {0x30, 0x0a, 0x06, 0x03, 0x2a, 0x03, 0x01, 0x06, 0x03, 0x2a, 0x03, 0x02};
static const uint8_t FIRST[] = {0x2a, 0x03, 0x01}, SECOND[] = {0x2a, 0x03, 0x02}, THIRD[] = {0x2a, 0x03, 0x03};
static const uint8_t TOKEN[] = {'t', 'o', 'k', 'e', 'n'}, PEER_MIC[] = {'p', 'e', 'e', 'r'}, OWN_MIC[] = {'o', 'w', 'n'};

/* What a message says; its negState is not looked at in an offer. */
struct said {
    uint32_t state, choice, integrity, has_token, has_mic;
};

/* What a side sends; of nothing all is 0. */
struct sent {
    uint32_t sends, state, names, has_token, has_mic;
};

struct message {
    uint8_t octets[MESSAGE_ROOM];
    size_t size;
};

static struct message reply_of(uint32_t state, const uint8_t *name, size_t name_size, bool token, bool own, bool mic) {
    struct message it;
    krb_status status = krb_make_neg_token_resp(state, name, name_size, TOKEN, token ? sizeof TOKEN : 0, own ? OWN_MIC : PEER_MIC, !mic ? 0 : own ? sizeof OWN_MIC : sizeof PEER_MIC,
                                                it.octets, MESSAGE_ROOM, &it.size);
    if (status != KRB_DONE) it.size = 0;
    return it;
}

/* The octets of a message to a side of this role; an offer is one to an acceptor that begins. */
static struct message message_of(const struct said *said, bool is_offer) {
    static const uint8_t identifiers[] = {0x06, 0x03, 0x2a, 0x03, 0x03, 0x06, 0x03, 0x2a, 0x03, 0x01, 0x06, 0x03, 0x2a, 0x03, 0x02};
    static const size_t starts[] = {0, 0, 5, 0}, counts[] = {0, 5, 10, 10};
    static const uint8_t *const named[] = {FIRST, THIRD, FIRST, SECOND};
    struct message it;
    if (!is_offer) return reply_of(said->state, named[said->choice & 3], said->choice ? 3 : 0, said->has_token, false, said->has_mic);
    krb_status status = krb_make_neg_token_init(identifiers + starts[said->choice & 3], counts[said->choice & 3], TOKEN, said->has_token ? sizeof TOKEN : 0, PEER_MIC,
                                                said->has_mic ? sizeof PEER_MIC : 0, it.octets, MESSAGE_ROOM, &it.size);
    if (status != KRB_DONE) it.size = 0;
    return it;
}

/* What octets that are sent say: each message that there may be is made, and compared. */
static bool reads_as(const uint8_t *octets, size_t size, struct sent *sent) {
    for (uint32_t says = 0; says < 32; says++) {
        *sent = (struct sent){1, says & 3, says >> 2 & 1, says >> 3 & 1, says >> 4 & 1};
        struct message it = reply_of(sent->state, FIRST, sent->names ? 3 : 0, sent->has_token, true, sent->has_mic);
        if (it.size == size && !memcmp(it.octets, octets, size)) return true;
    }
    *sent = (struct sent){0, 0, 0, 0, 0};
    return size == 0;
}

/* What a message asks of a mechanism. */
static inline krb_status step_asked(const krb_negotiation *side, const struct said *said, krb_negotiation_question *question) {
    krb_mechanism mechanisms[] = {{0, said->integrity, 0}, {1, said->integrity, 0}};
    struct message it = message_of(said, side->role == KRB_ACCEPTOR && side->stage == KRB_STAGE_BEGINS);
    uint8_t out[MESSAGE_ROOM];
    size_t size;
    return krb_negotiation_take(side, NAMES, sizeof NAMES, mechanisms, 2, LIST, sizeof LIST, it.octets, it.size, question, out, MESSAGE_ROOM, &size);
}

/* A side makes its step, and what it sends then, where a mechanism made this of the token, and its MIC is told. */
static inline krb_status step_made(krb_negotiation *side, const struct said *said, uint32_t mechanism, uint32_t progress, bool holds, bool *is_read, struct sent *sent) {
    krb_mechanism mechanisms[] = {{0, said->integrity, 0}, {1, said->integrity, 0}};
    bool is_offer = side->role == KRB_ACCEPTOR && side->stage == KRB_STAGE_BEGINS, speaks = progress == KRB_PROGRESS_CONTINUES || progress == KRB_PROGRESS_ENDS_WITH_TOKEN;
    struct message it = message_of(said, is_offer);
    krb_negotiation_reply reply = {7, 7};
    uint8_t out[MESSAGE_ROOM], list[MESSAGE_ROOM];
    size_t size = 0, list_size = sizeof LIST;
    memcpy(list, LIST, sizeof LIST);
    if (is_offer) {
        krb_negotiation_question question = {0};
        krb_status status = krb_negotiation_take(side, NAMES, sizeof NAMES, mechanisms, 2, NULL, 0, it.octets, it.size, &question, list, MESSAGE_ROOM, &size);
        if (status != KRB_DONE) return status;
        memmove(list, list + question.token_size + question.mic_size, question.list_size);
        list_size = question.list_size;
    }
    krb_status status = krb_negotiation_answer(side, NAMES, sizeof NAMES, mechanisms, 2, list, list_size, it.octets, it.size, mechanism, progress, TOKEN, speaks ? sizeof TOKEN : 0,
                                               PEER_MIC, holds ? sizeof PEER_MIC : 0, NULL, 0, &reply, out, MESSAGE_ROOM, &size);
    if (status == KRB_DONE && reply.lacks_mic)
        status = krb_negotiation_answer(side, NAMES, sizeof NAMES, mechanisms, 2, list, list_size, it.octets, it.size, mechanism, progress, TOKEN, speaks ? sizeof TOKEN : 0,
                                        PEER_MIC, holds ? sizeof PEER_MIC : 0, OWN_MIC, sizeof OWN_MIC, &reply, out, MESSAGE_ROOM, &size);
    *sent = (struct sent){0, 0, 0, 0, 0};
    *is_read = status != KRB_DONE || (!reply.lacks_mic && (reply.sends ? reads_as(out, size, sent) : size == 0));
    return status;
}
#endif

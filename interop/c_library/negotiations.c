/* Makes the calls of a negotiation: two sides with a toy mechanism between them, with a third between or without; each rule; and all states with all messages. What is
   wanted stands below, by RFC 4178, 3.2, 4.2 and 5, and by what krb.h says is left as it was. */
#include "counts.h"
#include "negotiating.h"
#include <stdio.h>

/* A mechanism that exchanges so many tokens in turn, the initiator's first. */
struct toy {
    int tokens, sent;
};

/* What a side makes of the last token that was sent, or of none. */
static uint32_t progress_of(struct toy *toy) {
    if (toy->sent == toy->tokens) return KRB_PROGRESS_ENDS;
    toy->sent++;
    return toy->sent == toy->tokens ? KRB_PROGRESS_ENDS_WITH_TOKEN : KRB_PROGRESS_CONTINUES;
}

/* What an acceptor hears of an offer of two mechanisms, the first with its token, and whether it is the list that was sent. */
struct heard {
    uint32_t choice, has_token;
    bool is_changed;
};

/* How a conversation ended. */
struct end {
    int messages;
    krb_negotiation initiator, acceptor;
};

/* One side takes a message and answers it. The MIC holds where the list is the one that was sent, and the side can verify it. */
static void step(krb_negotiation *side, struct toy *toy, const struct said *said, bool is_changed, struct sent *sent) {
    krb_negotiation_question question = {0};
    bool is_read = false;
    memset(sent, 0, sizeof *sent);
    krb_status status = step_asked(side, said, &question);
    EXPECT(status == KRB_DONE, "a message is not taken: status %u", status);
    uint32_t progress = !question.rule && question.steps ? progress_of(toy) : KRB_PROGRESS_RESTS;
    bool can_verify = progress == KRB_PROGRESS_RESTS ? side->established : progress == KRB_PROGRESS_ENDS;
    status = step_made(side, said, question.mechanism, progress, said->has_mic && can_verify && !is_changed, &is_read, sent);
    EXPECT(status == KRB_DONE && is_read, "a message is not answered: status %u", status);
    EXPECT(!question.rule || (side->stage == KRB_STAGE_FAILED && side->rule == question.rule), "a question with rule %u, and stage %u", question.rule, side->stage);
    if (side->stage == KRB_STAGE_FAILED) memset(sent, 0, sizeof *sent);
}

/* The initiator after its offer, which is made by the library where its first token leaves it waiting or ends it. */
static krb_negotiation offered(bool established) {
    static const krb_mechanism mechanisms[] = {{0, 1, 0}, {1, 1, 0}};
    krb_negotiation side = {.role = KRB_INITIATOR};
    uint8_t out[MESSAGE_ROOM];
    size_t size = 0, offer_size = 0;
    krb_status status = krb_negotiation_begin(&side, NAMES, sizeof NAMES, mechanisms, 2, 0, established ? KRB_PROGRESS_ENDS_WITH_TOKEN : KRB_PROGRESS_CONTINUES, TOKEN, sizeof TOKEN,
                                              &offer_size, out, sizeof out, &size);
    struct message right = message_of(&(struct said){0, CHOICE_FIRST, 0, 1, 0}, true);
    EXPECT(status == KRB_DONE && side.stage == KRB_STAGE_OFFERED && side.established == established, "an offer: status %u, stage %u", status, side.stage);
    EXPECT(offer_size == right.size && !memcmp(out, right.octets, right.size), "an offer of %zu octets", offer_size);
    EXPECT(size == offer_size + sizeof LIST && !memcmp(out + offer_size, LIST, sizeof LIST), "the list behind the offer: %zu octets", size - offer_size);
    return side;
}

/* `choice` is what the initiator reads in the acceptor's first reply. */
static struct end converse(int tokens, uint32_t choice, bool asks, struct heard heard) {
    struct end end = {1, offered(tokens == 1), {.role = KRB_ACCEPTOR, .asks = asks}};
    struct toy toy = {tokens, choice == CHOICE_FIRST};
    struct said message = {KRB_NEG_STATE_ABSENT, heard.choice, 1, heard.has_token, 0};
    struct sent sent;
    for (int turn = 0; turn < 12; turn++) {
        step(turn % 2 ? &end.initiator : &end.acceptor, &toy, &message, heard.is_changed, &sent);
        if (!sent.sends) break;
        end.messages++;
        message = (struct said){sent.state, sent.names ? choice : CHOICE_ABSENT, 1, sent.has_token, sent.has_mic};
    }
    return end;
}

/* Nobody is between them: tokens, the acceptor's mechanism, whether it asks for MICs; the messages that RFC 4178, 5, gives, and whether by MICs. */
static void try_honest(void) {
    static const struct {
        int tokens;
        uint32_t choice;
        bool asks;
        int messages;
        uint32_t by_mic;
    } rows[] = {{1, CHOICE_FIRST, false, 2, 0}, {1, CHOICE_FIRST, true, 3, 1}, {2, CHOICE_FIRST, false, 2, 0}, {2, CHOICE_FIRST, true, 3, 1},
                {3, CHOICE_FIRST, false, 4, 0}, {3, CHOICE_FIRST, true, 4, 1}, {2, CHOICE_OTHER, false, 5, 1}, {3, CHOICE_OTHER, true, 6, 1}};
    for (size_t k = 0; k < sizeof rows / sizeof *rows; k++) {
        struct end end = converse(rows[k].tokens, rows[k].choice, rows[k].asks, (struct heard){rows[k].choice, 1, false});
        EXPECT(end.messages == rows[k].messages, "conversation %zu: %d messages", k, end.messages);
        EXPECT(end.initiator.stage == KRB_STAGE_COMPLETE && end.initiator.by_mic == rows[k].by_mic && end.initiator.established, "conversation %zu: the initiator's stage %u, rule %u",
                k, end.initiator.stage, end.initiator.rule);
        EXPECT(end.acceptor.stage == KRB_STAGE_COMPLETE && end.acceptor.by_mic == rows[k].by_mic && end.acceptor.established, "conversation %zu: the acceptor's stage %u, rule %u", k,
                end.acceptor.stage, end.acceptor.rule);
        struct said stray = {KRB_NEG_STATE_ABSENT, CHOICE_ABSENT, 0, 0, 0};
        struct sent sent;
        bool is_read;
        krb_status status = step_made(&end.initiator, &stray, 0, KRB_PROGRESS_RESTS, false, &is_read, &sent);
        EXPECT(status == KRB_DONE && is_read && !sent.sends && end.initiator.stage == KRB_STAGE_FAILED && end.initiator.rule == KRB_NEGOTIATION_RULE_FINISHED,
                "conversation %zu: a message after the end: %u", k, end.initiator.rule);
    }
}

/* A third cuts the first choice and its token out of the offer, or what stands behind it. Who asks for MICs is found out by its own, which is over the list that it got;
   who takes another choice than the first without a MIC is found out too. Behind the first choice nothing is protected where nobody asks (RFC 4178, 5). */
static void try_third(void) {
    static const struct {
        uint32_t choice, has_token;
        bool asks;
        uint32_t initiator, rule, acceptor;
    } rows[] = {{CHOICE_OTHER, 0, true, KRB_STAGE_FAILED, KRB_NEGOTIATION_RULE_WRONG_MIC, KRB_STAGE_WAITS},
                {CHOICE_OTHER, 0, false, KRB_STAGE_FAILED, KRB_NEGOTIATION_RULE_NO_MIC, KRB_STAGE_COMPLETE},
                {CHOICE_FIRST, 1, true, KRB_STAGE_FAILED, KRB_NEGOTIATION_RULE_WRONG_MIC, KRB_STAGE_WAITS},
                {CHOICE_FIRST, 1, false, KRB_STAGE_COMPLETE, KRB_NEGOTIATION_RULE_NONE, KRB_STAGE_COMPLETE}};
    for (size_t k = 0; k < sizeof rows / sizeof *rows; k++) {
        struct end end = converse(2, rows[k].choice, rows[k].asks, (struct heard){CHOICE_FIRST, rows[k].has_token, true});
        EXPECT(end.initiator.stage == rows[k].initiator && end.initiator.rule == rows[k].rule && end.acceptor.stage == rows[k].acceptor,
                "a third, %zu: the initiator's stage %u, rule %u, the acceptor's stage %u", k, end.initiator.stage, end.initiator.rule, end.acceptor.stage);
    }
}

/* The rule that a message breaks first (krb.h has their order). */
static void try_rules(void) {
    enum { OFFERED = KRB_STAGE_OFFERED, WAITS = KRB_STAGE_WAITS, NO = KRB_NEG_STATE_ABSENT, DONE = KRB_NEG_STATE_ACCEPT_COMPLETED, MORE = KRB_NEG_STATE_ACCEPT_INCOMPLETE };
    static const struct {
        krb_negotiation side;
        struct said message;
        uint32_t progress, mic, rule;
    } rows[] = {
        /* an offer */
        {{.role = KRB_ACCEPTOR}, {NO, CHOICE_ABSENT, 0, 1, 1}, 0, 0, KRB_NEGOTIATION_RULE_NO_MECHANISM},
        {{.role = KRB_ACCEPTOR}, {NO, CHOICE_UNKNOWN, 0, 1, 1}, 0, 0, KRB_NEGOTIATION_RULE_UNKNOWN_MECHANISM},
        {{.role = KRB_ACCEPTOR, .asks = 1}, {NO, CHOICE_FIRST, 0, 1, 1}, 0, 0, KRB_NEGOTIATION_RULE_UNPROTECTED},
        {{.role = KRB_ACCEPTOR}, {NO, CHOICE_OTHER, 0, 1, 0}, 0, 0, KRB_NEGOTIATION_RULE_UNPROTECTED},
        {{.role = KRB_ACCEPTOR}, {NO, CHOICE_OTHER, 1, 1, 1}, 0, 0, KRB_NEGOTIATION_RULE_EARLY_MIC},
        {{.role = KRB_ACCEPTOR}, {NO, CHOICE_FIRST, 1, 0, 1}, 0, 0, KRB_NEGOTIATION_RULE_EARLY_MIC},
        {{.role = KRB_ACCEPTOR}, {NO, CHOICE_FIRST, 1, 1, 1}, KRB_PROGRESS_CONTINUES, MIC_WRONG, KRB_NEGOTIATION_RULE_EARLY_MIC},
        {{.role = KRB_ACCEPTOR}, {NO, CHOICE_FIRST, 1, 1, 1}, KRB_PROGRESS_ENDS, MIC_WRONG, KRB_NEGOTIATION_RULE_WRONG_MIC},
        {{.role = KRB_ACCEPTOR}, {NO, CHOICE_FIRST, 1, 1, 0}, KRB_PROGRESS_REFUSED, 0, KRB_NEGOTIATION_RULE_MECHANISM_FAILED},
        /* the first reply */
        {{.role = KRB_INITIATOR, .stage = OFFERED}, {NO, CHOICE_ABSENT, 0, 0, 0}, 0, 0, KRB_NEGOTIATION_RULE_NO_STATE},
        {{.role = KRB_INITIATOR, .stage = OFFERED}, {KRB_NEG_STATE_REJECT, CHOICE_ABSENT, 0, 0, 0}, 0, 0, KRB_NEGOTIATION_RULE_REJECTED},
        {{.role = KRB_INITIATOR, .stage = OFFERED}, {MORE, CHOICE_ABSENT, 0, 1, 0}, 0, 0, KRB_NEGOTIATION_RULE_NO_MECHANISM},
        {{.role = KRB_INITIATOR, .stage = OFFERED}, {MORE, CHOICE_UNKNOWN, 0, 1, 0}, 0, 0, KRB_NEGOTIATION_RULE_UNKNOWN_MECHANISM},
        {{.role = KRB_INITIATOR, .stage = OFFERED}, {MORE, CHOICE_OTHER, 0, 0, 0}, 0, 0, KRB_NEGOTIATION_RULE_UNPROTECTED},
        {{.role = KRB_INITIATOR, .stage = OFFERED}, {KRB_NEG_STATE_REQUEST_MIC, CHOICE_FIRST, 0, 1, 0}, 0, 0, KRB_NEGOTIATION_RULE_UNPROTECTED},
        {{.role = KRB_INITIATOR, .stage = OFFERED}, {MORE, CHOICE_OTHER, 1, 1, 0}, 0, 0, KRB_NEGOTIATION_RULE_UNEXPECTED_TOKEN},
        {{.role = KRB_INITIATOR, .stage = OFFERED, .established = 1}, {DONE, CHOICE_FIRST, 1, 1, 0}, 0, 0, KRB_NEGOTIATION_RULE_UNEXPECTED_TOKEN},
        {{.role = KRB_INITIATOR, .stage = OFFERED}, {MORE, CHOICE_FIRST, 1, 0, 0}, 0, 0, KRB_NEGOTIATION_RULE_NO_TOKEN},
        {{.role = KRB_INITIATOR, .stage = OFFERED}, {MORE, CHOICE_FIRST, 1, 1, 0}, KRB_PROGRESS_REFUSED, 0, KRB_NEGOTIATION_RULE_MECHANISM_FAILED},
        {{.role = KRB_INITIATOR, .stage = OFFERED}, {MORE, CHOICE_FIRST, 1, 1, 1}, KRB_PROGRESS_CONTINUES, MIC_WRONG, KRB_NEGOTIATION_RULE_EARLY_MIC},
        {{.role = KRB_INITIATOR, .stage = OFFERED}, {KRB_NEG_STATE_REQUEST_MIC, CHOICE_FIRST, 1, 1, 1}, KRB_PROGRESS_ENDS, MIC_WRONG, KRB_NEGOTIATION_RULE_WRONG_MIC},
        {{.role = KRB_INITIATOR, .stage = OFFERED}, {DONE, CHOICE_FIRST, 1, 1, 0}, KRB_PROGRESS_ENDS_WITH_TOKEN, MIC_ABSENT, KRB_NEGOTIATION_RULE_EARLY_COMPLETION},
        /* a later message */
        {{.role = KRB_INITIATOR, .stage = WAITS}, {KRB_NEG_STATE_REJECT, CHOICE_FIRST, 1, 1, 0}, 0, 0, KRB_NEGOTIATION_RULE_REJECTED},
        {{.role = KRB_INITIATOR, .stage = WAITS}, {KRB_NEG_STATE_REQUEST_MIC, CHOICE_FIRST, 1, 1, 0}, 0, 0, KRB_NEGOTIATION_RULE_LATE_REQUEST},
        {{.role = KRB_INITIATOR, .stage = WAITS}, {MORE, CHOICE_FIRST, 1, 1, 0}, 0, 0, KRB_NEGOTIATION_RULE_SECOND_MECHANISM},
        {{.role = KRB_ACCEPTOR, .stage = WAITS, .established = 1}, {NO, CHOICE_ABSENT, 0, 1, 0}, 0, 0, KRB_NEGOTIATION_RULE_UNEXPECTED_TOKEN},
        {{.role = KRB_ACCEPTOR, .stage = WAITS}, {NO, CHOICE_ABSENT, 0, 0, 0}, 0, 0, KRB_NEGOTIATION_RULE_NO_TOKEN},
        {{.role = KRB_ACCEPTOR, .stage = WAITS, .established = 1, .required = 1}, {NO, CHOICE_ABSENT, 0, 0, 0}, 0, MIC_ABSENT, KRB_NEGOTIATION_RULE_NO_MIC},
        {{.role = KRB_ACCEPTOR, .stage = WAITS, .established = 1, .required = 1}, {NO, CHOICE_ABSENT, 0, 0, 1}, 0, MIC_WRONG, KRB_NEGOTIATION_RULE_WRONG_MIC},
        {{.role = KRB_ACCEPTOR, .stage = KRB_STAGE_COMPLETE}, {NO, CHOICE_ABSENT, 0, 0, 0}, 0, 0, KRB_NEGOTIATION_RULE_FINISHED},
    };
    for (size_t k = 0; k < sizeof rows / sizeof *rows; k++) {
        krb_negotiation side = rows[k].side;
        krb_negotiation_question question = {0};
        struct sent sent;
        bool is_read = false, quiet = rows[k].rule == KRB_NEGOTIATION_RULE_REJECTED || rows[k].rule == KRB_NEGOTIATION_RULE_FINISHED;
        krb_status status = step_asked(&side, &rows[k].message, &question);
        uint32_t progress = !question.rule && question.steps ? rows[k].progress : KRB_PROGRESS_RESTS;
        krb_status done = step_made(&side, &rows[k].message, question.mechanism, progress, rows[k].mic == MIC_HOLDS, &is_read, &sent);
        EXPECT(is_read && sent.sends == !quiet && (quiet || (sent.state == KRB_NEG_STATE_REJECT && !sent.names && !sent.has_token && !sent.has_mic)),
                "rule %u, row %zu: a side that failed does not reject", rows[k].rule, k);
        EXPECT(status == KRB_DONE && done == KRB_DONE && side.stage == KRB_STAGE_FAILED && side.rule == rows[k].rule, "row %zu: stage %u, rule %u, and not %u", k, side.stage,
                side.rule, rows[k].rule);
    }
}

/* But for the stage and the rule, one side is as another. */
static int is_alike(const krb_negotiation *one, const krb_negotiation *other) {
    krb_negotiation it = *one;
    it.stage = other->stage, it.rule = other->rule;
    return !memcmp(&it, other, sizeof it);
}

/* What a side answers to a message of which this is asked, of each progress and each MIC. */
static void try_answers(const krb_negotiation *before, const struct said *said, const krb_negotiation_question *question) {
    bool is_offer = before->role == KRB_ACCEPTOR && before->stage == KRB_STAGE_BEGINS;
    for (uint32_t at = 0; at < 4; at++)
        for (uint32_t mic = said->has_mic ? MIC_HOLDS : MIC_ABSENT; mic <= (said->has_mic ? MIC_WRONG : MIC_ABSENT); mic++) {
            krb_negotiation side = *before;
            struct sent sent;
            bool is_read = false;
            uint32_t progress = question->steps ? at : KRB_PROGRESS_RESTS;
            krb_status status = step_made(&side, said, question->mechanism, progress, mic == MIC_HOLDS, &is_read, &sent);
            EXPECT(status == KRB_DONE && is_read && (side.stage == KRB_STAGE_WAITS || side.stage == KRB_STAGE_COMPLETE || side.stage == KRB_STAGE_FAILED), "status %u, stage %u", status,
                    side.stage);
            EXPECT(side.stage != KRB_STAGE_FAILED || (is_alike(&side, before) && side.rule && sent.sends && sent.state == KRB_NEG_STATE_REJECT), "a failure by rule %u changes more",
                    side.rule);
            EXPECT(side.stage == KRB_STAGE_FAILED || (!side.rule && side.role == before->role && side.asks == before->asks && sent.state != KRB_NEG_STATE_REJECT), "stage %u with rule %u",
                    side.stage, side.rule);
            EXPECT(side.stage == KRB_STAGE_FAILED || side.mechanism == question->mechanism, "another mechanism, %u", side.mechanism);
            EXPECT(!(question->steps && progress == KRB_PROGRESS_REFUSED) || side.rule == KRB_NEGOTIATION_RULE_MECHANISM_FAILED, "a refused token, and rule %u", side.rule);
            /* (an acceptor that has no token of its mechanism names it alone: no MIC was beside its name) */
            EXPECT(mic != MIC_WRONG || (is_offer && !question->steps) || side.stage == KRB_STAGE_FAILED, "a MIC that does not hold, and stage %u", side.stage);
            EXPECT(side.stage != KRB_STAGE_COMPLETE || !side.required || side.by_mic, "complete without a MIC that has to come");
            EXPECT(!side.by_mic || before->by_mic || (side.stage == KRB_STAGE_COMPLETE && mic == MIC_HOLDS), "by a MIC that did not hold");
            /* another mechanism is told of: the one that is chosen has made no step */
            side = *before;
            if (!question->steps) continue;
            step_made(&side, said, 1 - question->mechanism, progress, mic == MIC_HOLDS, &is_read, &sent);
            EXPECT(side.stage == KRB_STAGE_FAILED && side.rule == KRB_NEGOTIATION_RULE_MECHANISM_FAILED, "another mechanism is told of, and rule %u", side.rule);
        }
}

/* One side with one message. */
static void try_taken(const krb_negotiation *before, const struct said *said) {
    krb_negotiation side = *before;
    krb_negotiation_question question = {.rule = 7};
    struct sent sent;
    bool is_read = false, is_offer = before->role == KRB_ACCEPTOR && before->stage == KRB_STAGE_BEGINS;
    krb_status status = step_asked(before, said, &question);
    EXPECT(status == KRB_DONE, "stage %u, state %u: status %u", before->stage, said->state, status);
    if (before->stage == KRB_STAGE_FAILED) EXPECT(question.rule == before->rule, "a side that has failed is asked by rule %u", question.rule);
    if (before->stage == KRB_STAGE_COMPLETE) EXPECT(question.rule == KRB_NEGOTIATION_RULE_FINISHED, "a message to a complete side: rule %u", question.rule);
    if (question.rule) {
        status = step_made(&side, said, 0, KRB_PROGRESS_ENDS, true, &is_read, &sent);
        EXPECT(status == KRB_DONE && is_read && side.stage == KRB_STAGE_FAILED && is_alike(&side, before) && side.rule == question.rule, "a failure by rule %u changes more", side.rule);
        EXPECT(before->stage != KRB_STAGE_FAILED || (!sent.sends && !memcmp(&side, before, sizeof side)), "a side that has failed is another");
        return;
    }
    uint32_t steps = is_offer ? said->choice == CHOICE_FIRST && said->has_token : !before->established || (before->stage == KRB_STAGE_OFFERED && said->choice == CHOICE_OTHER);
    EXPECT(question.steps == steps && question.has_token == said->has_token && question.has_mic == said->has_mic && question.has_list == is_offer, "steps %u, token %u, MIC %u, list %u",
            question.steps, question.has_token, question.has_mic, question.has_list);
    try_answers(before, said, &question);
}

/* All states with all messages; a side that begins is all 0 but for what krb.h says. */
static void try_all(void) {
    static const uint32_t states[] = {0, 1, 2, 3, KRB_NEG_STATE_ABSENT}, stages[] = {KRB_STAGE_BEGINS, KRB_STAGE_WAITS, KRB_STAGE_COMPLETE, KRB_STAGE_FAILED};
    for (uint32_t flags = 0; flags < 64; flags++)
        for (size_t stage = 0; stage < 4; stage++)
            for (size_t state = 0; state < 5; state++)
                for (uint32_t says = 0; says < 32; says++) {
                    krb_negotiation side = {.role = flags & 1, .asks = flags >> 1 & 1, .stage = stages[stage], .established = flags >> 2 & 1, .preferred = flags >> 3 & 1,
                                            .required = flags >> 4 & 1, .sent = flags >> 5 & 1};
                    struct said said = {states[state], says & 3, says >> 2 & 1, says >> 3 & 1, says >> 4 & 1};
                    if (stages[stage] == KRB_STAGE_BEGINS && (side.preferred | side.required | side.sent | (side.role == KRB_ACCEPTOR && side.established))) continue;
                    if (stages[stage] == KRB_STAGE_BEGINS && side.role == KRB_INITIATOR) side.stage = KRB_STAGE_OFFERED;
                    if (stages[stage] == KRB_STAGE_FAILED) side.rule = KRB_NEGOTIATION_RULE_REJECTED;
                    try_taken(&side, &said);
                }
}

/* Numbers that are none, names that are no encoding, and too little room: all is as it was. */
static void try_numbers(void) {
    static const krb_negotiation sides[] = {{.role = 2}, {.role = UINT32_MAX}, {.stage = 6}, {.stage = UINT32_MAX}, {.role = KRB_INITIATOR}, {.role = KRB_ACCEPTOR, .stage = KRB_STAGE_OFFERED},
                                            {.role = KRB_INITIATOR, .stage = KRB_STAGE_BARE}, {.stage = KRB_STAGE_WAITS, .mechanism = 2}, {.role = 1, .stage = KRB_STAGE_WAITS, .mechanism = 2},
                                            {.role = 1, .stage = KRB_STAGE_BARE, .mechanism = 2}, {.stage = KRB_STAGE_FAILED}, {.stage = KRB_STAGE_FAILED, .rule = 17}};
    const struct said said = {KRB_NEG_STATE_ACCEPT_INCOMPLETE, CHOICE_ABSENT, 1, 1, 0};
    for (size_t k = 0; k < sizeof sides / sizeof *sides; k++) {
        krb_negotiation side = sides[k];
        krb_negotiation_question question = {.rule = 7, .list_size = 7}, untold = question;
        struct sent sent;
        bool is_read;
        krb_status status = step_asked(&side, &said, &question);
        EXPECT(status == KRB_NUMBER && !memcmp(&question, &untold, sizeof question), "side %zu: status %u", k, status);
        status = step_made(&side, &said, 0, KRB_PROGRESS_ENDS, false, &is_read, &sent);
        EXPECT(status == KRB_NUMBER && !memcmp(&side, &sides[k], sizeof side), "side %zu: status %u", k, status);
    }
    static const uint32_t progresses[] = {5, 6, 255, UINT32_MAX};
    for (size_t k = 0; k < sizeof progresses / sizeof *progresses; k++) {
        krb_negotiation side = {.stage = KRB_STAGE_WAITS}, before = side;
        struct sent sent;
        bool is_read;
        krb_status status = step_made(&side, &said, 0, progresses[k], false, &is_read, &sent);
        EXPECT(status == KRB_NUMBER && !memcmp(&side, &before, sizeof side), "progress %u: status %u", progresses[k], status);
    }
    krb_mechanism mechanisms[] = {{0, 1, 0}, {1, 1, 0}};
    struct message it = message_of(&said, false);
    for (size_t cut = 0; cut < sizeof NAMES; cut++) {
        krb_negotiation side = {.role = KRB_ACCEPTOR, .stage = KRB_STAGE_WAITS}, before = side;
        krb_negotiation_reply reply = {7, 7};
        uint8_t out[MESSAGE_ROOM];
        size_t size = 7;
        krb_status status = krb_negotiation_answer(&side, NAMES, cut, mechanisms, 2, LIST, sizeof LIST, it.octets, it.size, 0, KRB_PROGRESS_ENDS, NULL, 0, NULL, 0, NULL, 0, &reply, out,
                                                   sizeof out, &size);
        EXPECT(status == KRB_TRUNCATED && size == 0 && reply.sends == 7 && !memcmp(&side, &before, sizeof side), "%zu octets of the names: status %u", cut, status);
    }
    for (size_t count = 0; count < 2; count++) {
        krb_negotiation side = {.role = KRB_ACCEPTOR, .stage = KRB_STAGE_WAITS}, before = side;
        krb_negotiation_reply reply = {7, 7};
        uint8_t out[MESSAGE_ROOM];
        size_t size = 7;
        krb_status status = krb_negotiation_answer(&side, NAMES, sizeof NAMES, mechanisms, count, LIST, sizeof LIST, it.octets, it.size, 0, KRB_PROGRESS_ENDS, NULL, 0, NULL, 0, NULL, 0,
                                                   &reply, out, sizeof out, &size);
        EXPECT(status == KRB_INVALID && size == 0 && !memcmp(&side, &before, sizeof side), "%zu mechanisms: status %u", count, status);
    }
    for (size_t room = 0; room < 30; room++) {
        krb_negotiation side = {.role = KRB_ACCEPTOR, .stage = KRB_STAGE_WAITS, .preferred = 1}, before = side;
        krb_negotiation_reply reply = {7, 7};
        uint8_t out[MESSAGE_ROOM];
        size_t size = 0;
        krb_status status = krb_negotiation_answer(&side, NAMES, sizeof NAMES, mechanisms, 2, LIST, sizeof LIST, it.octets, it.size, 0, KRB_PROGRESS_CONTINUES, TOKEN, sizeof TOKEN, NULL, 0,
                                                   NULL, 0, &reply, out, room, &size);
        bool fits = room >= size;
        EXPECT(status == (fits ? KRB_DONE : KRB_ROOM) && (fits || (reply.sends == 7 && !memcmp(&side, &before, sizeof side))), "room of %zu for %zu: status %u", room, size, status);
    }
}

int main(void) {
    try_honest();
    try_third();
    try_rules();
    try_numbers();
    try_all();
    return counted();
}

/* Compares nlp_replies_next with mnl_cb_run of libmnl, whose callback always continues.
 *
 * Reads captured streams, and makes as many random ones as the first argument says. For each, both must return the
 * same messages in the same order, and end at the same frame: mnl_cb_run with 0 for a done message or an
 * acknowledgement, and with the errno of an error message. A rule below decides from the bytes of a frame whether
 * they differ at it, and then states what each does. Prints how often each rule applied in the random streams. */
#include "random_streams.h"

#include <errno.h>
#include <libmnl/libmnl.h>

enum { MESSAGES = 1 << 14, MULTI = 2, DUMP_INTR = 0x10, MIN_TYPE = 16, MIN_ERROR = 36 };

/* What mnl_cb_run does at a frame: an errno with which it stops, or one of these. It stops with 0, passes the frame to
 * the callback, or skips it. ACCEPTS: what it does at a frame of an open answer. AS_HERE: what the library's reply
 * means. */
enum { STOPS = 0, PASSES = -1, SKIPS = -2, ACCEPTS = -3, AS_HERE = -4 };

/* Any result and any reply of the library agree with the rule. */
enum { ANY = 100 };

enum kind {
    SAME, OTHER_PORT, OTHER_SEQUENCE, AFTER_END, FRAME_PORT_0, FRAME_SEQUENCE_0, REQUEST_SEQUENCE_0, INTERRUPTED,
    SINGLE_MESSAGE, RESERVED_TYPE, OVERRUN, DONE_WITH_CODE, SHORT_DONE, ACK_OF_DUMP, SHORT_ERROR, ERROR_BELOW_20,
    MALFORMED, KINDS
};

static const struct rule {
    const char *name;
    uint32_t answer; /* of nlp_replies_next */
    uint32_t what;   /* the reply, if the answer is NLP_OK */
    long action;     /* of mnl_cb_run */
} rules[KINDS] = {
    [SAME] = { "same", NLP_OK, ANY, AS_HERE },
    [OTHER_PORT] = { "another port number", NLP_OK, NLP_OTHER, ESRCH },
    [OTHER_SEQUENCE] = { "another sequence number", NLP_OK, NLP_OTHER, EPROTO },
    [AFTER_END] = { "after the end", NLP_OK, NLP_OTHER, ACCEPTS },
    [FRAME_PORT_0] = { "port number 0 in the frame", NLP_OK, NLP_OTHER, ACCEPTS },
    [FRAME_SEQUENCE_0] = { "sequence number 0 in the frame", NLP_OK, NLP_OTHER, ACCEPTS },
    [REQUEST_SEQUENCE_0] = { "sequence number 0 in the request", NLP_OK, NLP_OTHER, ACCEPTS },
    [INTERRUPTED] = { "interrupted", ANY, ANY, EINTR },
    [SINGLE_MESSAGE] = { "a message that ends the answer", NLP_OK, NLP_MESSAGE, PASSES },
    [RESERVED_TYPE] = { "type 0 or 5 to 15", NLP_OK, NLP_MESSAGE, SKIPS },
    [OVERRUN] = { "overrun", NLP_OK, NLP_OVERRUN, SKIPS },
    [DONE_WITH_CODE] = { "done with a code", NLP_OK, NLP_DONE, STOPS },
    [SHORT_DONE] = { "done of 1 to 3 bytes", NLP_DONE_SHORT, ANY, STOPS },
    [ACK_OF_DUMP] = { "acknowledgement of a dump", NLP_OK, NLP_ACKNOWLEDGED, STOPS },
    [SHORT_ERROR] = { "error of 0 to 3 bytes", NLP_ERROR_SHORT, ANY, EBADMSG },
    [ERROR_BELOW_20] = { "error of 4 to 19 bytes", NLP_OK, ANY, EBADMSG },
    [MALFORMED] = { "malformed", ANY, ANY, SKIPS },
};

static unsigned long applied[KINDS];

/* How often the two agree, by the reply; 0 is a noop. */
static const char *const replies_names[] = { "noop", "message", "done", "acknowledged", "rejected" };
static unsigned long agreed[NLP_OTHER + 1], open_streams;

/* What mnl_cb_run did, or has to do. */
struct run {
    const uint8_t *passed[MESSAGES]; /* the frames that the callback got */
    size_t count;
    int result;     /* of the last call: 1, 0 or -1 */
    uint32_t error; /* errno if the result is -1, else 0 */
    size_t last;    /* the index of the datagram that the last call got */
};

/* A frame, and what nlp_replies_next returned for it, unless it is a noop. */
struct step {
    const uint8_t *frame;
    size_t size;
    struct nlp_header header;
    uint32_t answer;
    struct nlp_reply reply;
};

static int pass(const struct nlmsghdr *message, void *data)
{
    struct run *run = data;
    run->passed[run->count++] = (const uint8_t *)message;
    return MNL_CB_OK;
}

static void run_mnl(const struct stream *stream, const struct nlp_request *request, struct run *run)
{
    run->count = 0;
    run->result = MNL_CB_OK;
    for (size_t i = 0; i < stream->count && run->result == MNL_CB_OK; i++) {
        errno = 0;
        run->result = mnl_cb_run(stream->datagrams[i].at, stream->datagrams[i].len, request->sequence_number,
                                 request->port_number, pass, run);
        run->error = run->result == MNL_CB_ERROR ? (uint32_t)errno : 0;
        run->last = i;
    }
}

/* Returns the errno that mnl_cb_run sets for a code; 0 for an acknowledgement, at which it stops with 0. */
static long errno_of(uint32_t code)
{
    return code >> 31 != 0 ? 0u - code : code;
}

static enum kind rule_of_type(const struct nlp_request *request, const struct step *step)
{
    size_t body = step->size - HEADER;
    uint32_t code = body < 4 ? 0 : nlp_u32(step->frame + HEADER);
    int is_last = !request->is_dump && !request->wants_ack && (step->header.flags & MULTI) == 0;
    switch (step->header.message_type) {
    case NLMSG_NOOP:
        return SAME;
    case NLMSG_OVERRUN:
        return OVERRUN;
    case NLMSG_DONE:
        return body > 0 && body < 4 ? SHORT_DONE : code != 0 ? DONE_WITH_CODE : SAME;
    case NLMSG_ERROR:
        if (body < 20)
            return body < 4 ? SHORT_ERROR : ERROR_BELOW_20;
        return request->is_dump && code == 0 ? ACK_OF_DUMP : SAME;
    default:
        return step->header.message_type < MIN_TYPE ? RESERVED_TYPE : is_last ? SINGLE_MESSAGE : SAME;
    }
}

/* Returns the rule for a frame in this state. */
static enum kind rule_of(const struct nlp_replies *before, const struct step *step)
{
    const struct nlp_request *request = &before->request;
    uint32_t port = step->header.port_number, sequence = step->header.sequence_number;
    int is_other_port = request->port_number != 0 && port != request->port_number;
    int is_other_sequence = sequence != request->sequence_number;
    if (is_other_port && port != 0)
        return OTHER_PORT;
    if (is_other_sequence && sequence != 0 && request->sequence_number != 0)
        return OTHER_SEQUENCE;
    if (before->ended)
        return AFTER_END;
    if (is_other_port)
        return FRAME_PORT_0;
    if (is_other_sequence)
        return sequence == 0 ? FRAME_SEQUENCE_0 : REQUEST_SEQUENCE_0;
    return step->header.flags & DUMP_INTR ? INTERRUPTED : rule_of_type(request, step);
}

/* Returns what mnl_cb_run does at a frame with this type and body, whatever else its header has. */
static long by_type(const struct step *step)
{
    switch (step->header.message_type) {
    case NLMSG_DONE:
        return STOPS;
    case NLMSG_ERROR:
        return step->size < MIN_ERROR ? EBADMSG : errno_of(nlp_u32(step->frame + HEADER));
    default:
        return step->header.message_type < MIN_TYPE ? SKIPS : PASSES;
    }
}

/* Returns what mnl_cb_run does if it does what the library's reply means. */
static long by_reply(const struct step *step)
{
    uint32_t what = step->header.message_type == NLMSG_NOOP ? 0 : step->reply.what;
    switch (what) {
    case 0:
        return SKIPS;
    case NLP_MESSAGE:
        return PASSES;
    case NLP_DONE:
    case NLP_ACKNOWLEDGED:
        return STOPS;
    case NLP_REJECTED:
        return errno_of((uint32_t)step->reply.code);
    default:
        return AS_HERE;
    }
}

/* Returns what mnl_cb_run has to do by a rule. */
static long action_of(const struct rule *rule, const struct step *step)
{
    if (rule->action == AS_HERE)
        return by_reply(step);
    if (rule->action == ACCEPTS)
        return step->header.flags & DUMP_INTR ? EINTR : by_type(step);
    return rule->action;
}

/* Returns whether a reply ends an open answer. */
static int is_end(const struct nlp_request *request, const struct step *step)
{
    if (step->header.message_type == NLMSG_NOOP || step->answer != NLP_OK)
        return 0;
    switch (step->reply.what) {
    case NLP_MESSAGE:
        return !request->is_dump && !request->wants_ack && (step->header.flags & MULTI) == 0;
    case NLP_ACKNOWLEDGED:
        return !request->is_dump;
    default:
        return step->reply.what == NLP_DONE || step->reply.what == NLP_REJECTED;
    }
}

/* Returns whether the library returned what the rule for the type and the body states. */
static int is_reply(enum kind kind, const struct step *step)
{
    const struct rule *rule = &rules[kind];
    if (kind == SAME)
        return step->header.message_type == NLMSG_NOOP || (step->answer == NLP_OK && by_reply(step) == by_type(step));
    return (rule->answer == ANY || rule->answer == step->answer)
        && (rule->what == ANY || rule->what == step->reply.what);
}

/* Returns whether the library did what the rule states, and sets what mnl_cb_run has to do. */
static int apply(const struct step *step, const struct nlp_replies *before, const struct nlp_replies *after,
                 long *action)
{
    enum kind kind = rule_of(before, step);
    int is_noop = step->header.message_type == NLMSG_NOOP;
    *action = action_of(&rules[kind], step);
    applied[kind]++;
    if (kind == SAME)
        agreed[is_noop ? 0 : step->reply.what]++;
    if (after->ended != (before->ended || is_end(&before->request, step)))
        return 0;
    if (kind == SAME && after->ended != (*action >= 0))
        return 0;
    if (!is_noop && after->interrupted != (before->interrupted || kind == INTERRUPTED))
        return 0;
    if (is_noop)
        return 1;
    return is_reply(kind == INTERRUPTED ? rule_of_type(&before->request, step) : kind, step);
}

/* Adds to a run what mnl_cb_run does at a frame. */
static void extend(struct run *run, const struct step *step, long action)
{
    if (action == PASSES)
        run->passed[run->count++] = step->frame;
    if (action >= 0) {
        run->result = action == STOPS ? MNL_CB_STOP : MNL_CB_ERROR;
        run->error = (uint32_t)action;
    }
}

/* Reads a datagram by the library, until mnl_cb_run has to stop. Returns whether each frame follows its rule. */
static int follow_datagram(const struct bytes *datagram, struct nlp_replies *replies, struct run *run)
{
    struct step step = { 0 };
    struct nlp_part part;
    struct nlp_fault fault;
    size_t walk = 0, at = 0;
    uint32_t answer;
    while ((answer = nlp_frames_next(datagram->at, datagram->len, &walk, &part, &fault)) == NLP_OK) {
        struct nlp_replies before = *replies;
        long action;
        step.frame = datagram->at + part.offset;
        step.size = part.size;
        if (nlp_frame_header(step.frame, step.size, &step.header, &fault) != NLP_OK)
            return 0;
        if (step.header.message_type != NLMSG_NOOP) {
            step.answer = nlp_replies_next(datagram->at, datagram->len, &at, replies, &step.reply, &fault);
            if (at != walk || (step.answer == NLP_OK
                               && (step.reply.frame.offset != part.offset || step.reply.frame.size != part.size)))
                return 0;
        }
        if (!apply(&step, &before, replies, &action))
            return 0;
        extend(run, &step, action);
        if (run->result != MNL_CB_OK)
            return 1;
    }
    uint32_t ended = replies->ended;
    applied[MALFORMED] += answer != NLP_END;
    return nlp_replies_next(datagram->at, datagram->len, &at, replies, &step.reply, &fault) == answer
        && replies->ended == ended;
}

static int is_same_run(const struct run *run, const struct run *wanted)
{
    return run->result == wanted->result && run->error == wanted->error && run->last == wanted->last
        && run->count == wanted->count
        && memcmp(run->passed, wanted->passed, run->count * sizeof run->passed[0]) == 0;
}

/* Returns whether both read the stream alike, as far as no rule states a difference. */
static int compare(const struct stream *stream, const struct nlp_request *request)
{
    static struct run run, wanted;
    struct nlp_replies replies = { *request, 0, 0 };
    int follows = 1;
    run_mnl(stream, request, &run);
    wanted.count = 0;
    wanted.result = MNL_CB_OK;
    wanted.error = 0;
    for (size_t i = 0; i < stream->count && wanted.result == MNL_CB_OK && follows; i++) {
        wanted.last = i;
        follows = follow_datagram(&stream->datagrams[i], &replies, &wanted);
    }
    open_streams += wanted.result == MNL_CB_OK && !replies.ended;
    if (follows && is_same_run(&run, &wanted))
        return 1;
    fprintf(stderr, "libmnl returns %d, errno %u, %zu messages, and not %d, %u, %zu", run.result, (unsigned)run.error,
            run.count, wanted.result, (unsigned)wanted.error, wanted.count);
    fprintf(stderr, ": sequence %u port %u dump %u ack %u", (unsigned)request->sequence_number,
            (unsigned)request->port_number, (unsigned)request->is_dump, (unsigned)request->wants_ack);
    for (size_t i = 0; i < stream->count; i++)
        for (size_t j = 0; j < stream->datagrams[i].len; j++)
            fprintf(stderr, "%s%02x", j == 0 ? "\n  " : "", (unsigned)stream->datagrams[i].at[j]);
    fputs("\n", stderr);
    return 0;
}

/* Compares each captured stream, with the port number of the answer and without, and with the sequence number of the
 * request and without. Returns how many differ. */
static unsigned long compare_captured(struct corpus *corpus)
{
    unsigned long wrong = 0;
    while (read_stream(&corpus->streams[corpus->count])) {
        const struct stream *stream = &corpus->streams[corpus->count++];
        for (unsigned way = 0; way < 4; way++) {
            struct nlp_request request = request_of(stream, way & 1 ? port_of(stream) : 0);
            if (way & 2)
                request.sequence_number = 0;
            wrong += !compare(stream, &request);
        }
    }
    return wrong;
}

int main(int count, char **words)
{
    static struct corpus corpus;
    static struct stream stream;
    unsigned long wrong = compare_captured(&corpus), total = count > 1 ? strtoul(words[1], NULL, 10) : 0;
    printf("%zu captured streams\n", corpus.count);
    memset(applied, 0, sizeof applied);
    memset(agreed, 0, sizeof agreed);
    open_streams = 0;
    for (unsigned long i = 0; i < total && wrong < 10; i++) {
        struct nlp_request request = make_stream(&stream, &corpus);
        wrong += !compare(&stream, &request);
        free_stream(&stream);
    }
    printf("%lu random streams, %lu open at the end\n", total, open_streams);
    for (size_t i = 0; i < 5; i++)
        printf("%lu same: %s\n", agreed[i], replies_names[i]);
    for (size_t i = 1; i < KINDS; i++)
        printf("%lu differ: %s\n", applied[i], rules[i].name);
    return wrong == 0 ? 0 : 1;
}

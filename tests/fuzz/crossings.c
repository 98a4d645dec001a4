/* What must hold of the crossings in a log, before they are worked out a second time. */
#include "fuzz.h"

/* Who executes, and who waits in each frame. */
struct chain {
    unsigned domain;
    unsigned depth;
    uint8_t callers[8];
};

/* As the record was before the call. */
static struct chain chain_before(void)
{
    const uint8_t *bytes = record.kept + (record.at - record.room);
    struct chain c = { bytes[EXECUTING], bytes[DEPTH], { 0 } };
    for (unsigned f = 0; f < c.depth; f++)
        c.callers[f] = bytes[FRAMES + FRAME * f + CALLER];
    return c;
}

/* A call enters a gate of the domain entered, and the domain left waits. */
static void follow_call(struct chain *c, const uint8_t *crossing)
{
    unsigned segment = crossing[PLACE];
    must(c->depth < 8, "log", "a call must have a free frame");
    must(segment < record.at[SEGMENTS], "log", "a call must enter a segment");
    must(get16(crossing + PLACE + 1) < get16(record.at + GATES + 2 * segment), "log", "a call must enter a gate");
    must(crossing[ENTERED] == record.at[GATE_DOMAINS + segment], "log", "a call must enter the gate's domain");
    must(crossing[ENTERED] != crossing[LEFT], "log", "a call must enter another domain, since no gate is dead");
    c->callers[c->depth++] = crossing[LEFT];
}

/* A return enters the domain that waits in the newest frame. */
static void follow_return(struct chain *c, const uint8_t *crossing)
{
    must(c->depth > 0, "log", "a return must have a frame");
    must(crossing[ENTERED] == c->callers[--c->depth], "log", "a return must enter the domain that called");
}

static void follow(struct chain *c, const uint8_t *crossing)
{
    must(crossing[KIND] <= ZENKORV_CROSSING_RETURN, "log", "a crossing must be a call or a return");
    must(crossing[LEFT] == c->domain, "log", "the domain left must be the one entered last");
    if (crossing[KIND] == ZENKORV_CROSSING_CALL)
        follow_call(c, crossing);
    else
        follow_return(c, crossing);
    c->domain = crossing[ENTERED];
}

void judge_log(unsigned calls, unsigned returns, unsigned completed)
{
    unsigned all = calls + returns;
    unsigned kinds = 0;
    struct chain c = chain_before();
    must(all <= completed && completed <= LOG_LIMIT, "log", "each crossing must be one of at most 1,000 instructions");
    must(same_but(&output, CROSSING * all), "log", "bytes past the last crossing must stay");
    for (unsigned k = 0; k < all; k++) {
        follow(&c, output.at + CROSSING * k);
        kinds += output.at[CROSSING * k + KIND];
    }
    must(kinds == returns, "log", "its totals must be those of its kinds");
    must(c.domain == record.at[EXECUTING], "log", "the domain entered last must execute");
    must(c.depth == record.at[DEPTH], "log", "frames in use must be those before, with the calls, less the returns");
    keep(&output);
}

/* The cost of the protocol in C over the loop of plain.c: messages of one size go through two stacks written by hand (stack.h),
 * from one process to another over loopback.
 *
 *     byhand COUNT OCTETS CLASS
 *
 * prints messages and megabytes a second. As in examples/gateway, a point follows the last message, and its confirmation ends
 * the run. In class 2 the window is 15. */
#define _POSIX_C_SOURCE 200809L
#include "loop.h"
#include "stack.h"

static size_t outgoing_of(const struct stack *s)
{
    return s->carrier->outgoing.length - s->carrier->outgoing.first;
}

/* Writes once, as much as the socket takes. */
static void transmit(int socket, struct stack *s)
{
    struct octets *out = &s->carrier->outgoing;
    const ssize_t count = send(socket, out->at + out->first, outgoing_of(s), MSG_NOSIGNAL | MSG_DONTWAIT);
    if (count > 0)
        drop(out, (size_t)count);
}

/* What a side received. */
struct received {
    unsigned long messages;
    uint32_t point, confirmed;
    bool has_point, has_confirmation;
};

static void fetch(struct stack *s, struct received *r)
{
    const struct indication *i = &s->shown;
    r->messages += i->kind == SHOWN_DATA;
    r->has_point = r->has_point || i->kind == SHOWN_MINOR;
    r->has_confirmation = r->has_confirmation || i->kind == SHOWN_CONFIRMED;
    if (i->kind == SHOWN_MINOR)
        r->point = i->number;
    free(i->data.memory);
    s->waits = false;
}

/* Reads once, and takes all that came. */
static void receive(int socket, struct stack *s, struct received *r)
{
    static uint8_t piece[PIECE];
    const ssize_t came = recv(socket, piece, sizeof piece, MSG_DONTWAIT);
    must(came > 0, "recv");
    for (size_t used = 0; used < (size_t)came;) {
        used += feed_stack(s, piece + used, (size_t)came - used);
        if (s->waits)
            fetch(s, r);
        must(!s->carrier->ended, "the peer broke the protocol");
    }
}

/* Sends while few octets wait; the stack refuses what the window and its queue don't hold. Answers whether more can be sent as
 * soon as the socket takes octets. */
static bool send_some(struct stack *s, const struct task *t, unsigned long *said)
{
    static const uint8_t message[PIECE];
    const struct slice data = {message, t->octets};
    while (*said < t->count && outgoing_of(s) < MOST_WAITING) {
        if (!stack_data(s, 1, data))
            return false;
        if (++*said == t->count)
            must(stack_minor(s, 1), "a point");
    }
    return *said < t->count;
}

static void send_all(int socket, const struct task *t)
{
    static struct stack stack;
    struct received received = {0};
    unsigned long said = 0;
    open_stack(&stack, 1, t->window > 0, true);
    while (!received.has_confirmation) {
        const bool has_more = send_some(&stack, t, &said);
        if (outgoing_of(&stack) > 0)
            transmit(socket, &stack);
        const bool writes = outgoing_of(&stack) > 0 || has_more;
        if ((wait_for(socket, (short)(POLLIN | (writes ? POLLOUT : 0))) & POLLIN) != 0)
            receive(socket, &stack, &received);
    }
    close_carrier(stack.carrier);
}

static void take_all(int socket, const struct task *t)
{
    static struct stack stack;
    struct received received = {0};
    open_stack(&stack, 1, t->window > 0, false);
    while (!received.has_point) {
        wait_for(socket, POLLIN);
        receive(socket, &stack, &received);
        if (received.has_point)
            must(received.messages == t->count && stack_confirm(&stack, 1, received.point), "a confirmation");
        while (outgoing_of(&stack) > 0)
            transmit(socket, &stack);
    }
    close_carrier(stack.carrier);
}

int main(int words, char **word)
{
    if (words != 4)
        return 2;
    const struct task t = {strtoul(word[1], NULL, 10), word[3][0] == '2' ? WINDOW : 0, strtoul(word[2], NULL, 10)};
    if (t.count == 0 || t.octets == 0 || t.octets > PIECE)
        return 2;
    tell(&t, seconds_of(&t, send_all, take_all));
    return 0;
}

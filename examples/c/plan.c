/* Reads a task file on standard input and prints its plan, who runs on processor 1 at tick 0, and whether
 * server 1 passes with a whole slot. */
#include "rack.h"

#include <inttypes.h>
#include <stdio.h>

static uint8_t tasks[RACK_TASKS_BYTES];
static uint8_t text[RACK_PLAN_BYTES];

static void tell_refusal(const char *question, uint64_t status)
{
    printf("%s: refusal %" PRIu64 " at %" PRIu64 "\n", question, status / 256, status % 256);
}

static void tell_who(size_t n)
{
    uint64_t answer[2];
    uint64_t status = rack_who(tasks, n, 1, 0, answer, 2);
    if (status != 0) {
        tell_refusal("who", status);
        return;
    }
    printf("processor 1 at tick 0: server %" PRIu64 ", %" PRIu64 " ticks left\n", answer[0], answer[1]);
}

/* The slot is the field of six digits from the fifth digit of the header on. */
static uint64_t slot_of(size_t n)
{
    uint64_t slot = 0;
    for (size_t i = 4; i < 10 && i < n; i++) {
        slot = slot * 16 + (uint64_t)(tasks[i] <= '9' ? tasks[i] - '0' : tasks[i] - 'A' + 10);
    }
    return slot;
}

static void tell_pass(size_t n)
{
    uint64_t answer[4];
    uint64_t status = rack_pass(tasks, n, 1, slot_of(n), answer, 4);
    if (status != 0) {
        tell_refusal("pass", status);
        return;
    }
    printf("server 1 %s at length %" PRIu64 ": demand %" PRIu64 ", supply %" PRIu64 "\n",
           answer[0] == 1 ? "passes with its slot, closest" : "fails", answer[1], answer[2], answer[3]);
}

int main(void)
{
    size_t n = fread(tasks, 1, sizeof tasks, stdin);
    if (ferror(stdin)) {
        perror("standard input");
        return 1;
    }
    size_t length = rack_plan(tasks, n, text, sizeof text);
    fwrite(text, 1, length, stdout);
    tell_who(n);
    tell_pass(n);
    return 0;
}

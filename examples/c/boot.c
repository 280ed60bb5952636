/* Loads the switch list of a task file, as boot code does, and tells who runs on each ring processor at a tick that lies
 * past the first turn. The task file comes on standard input. */
#include "rack.h"

#include <inttypes.h>
#include <stdio.h>

#define TICK 1000026

static uint8_t tasks[RACK_TASKS_BYTES];
static uint8_t plan[RACK_PLAN_BYTES];
static uint8_t list[RACK_SWITCHES_BYTES];

static uint64_t field(const uint8_t *digits, size_t width)
{
    uint64_t value = 0;
    for (size_t i = 0; i < width; i++) {
        value = value * 16 + (uint64_t)(digits[i] <= '9' ? digits[i] - '0' : digits[i] - 'A' + 10);
    }
    return value;
}

/* The server of the processor's last line at or before a tick of the turn; 0 for idle. */
static uint64_t named(size_t length, uint64_t processor, uint64_t tick)
{
    uint64_t server = 0;
    for (const uint8_t *line = list; line < list + length; line += 15) {
        if (field(line + 10, 2) == processor && field(line + 2, 8) <= tick) {
            server = field(line + 12, 2);
        }
    }
    return server;
}

int main(void)
{
    size_t n = fread(tasks, 1, sizeof tasks, stdin);
    if (ferror(stdin)) {
        perror("standard input");
        return 1;
    }
    uint64_t length;
    uint64_t status = rack_switches(tasks, n, list, sizeof list, &length, 1);
    if (status != 0) {
        printf("refusal %" PRIu64 " at %" PRIu64 "\n", status / 256, status % 256);
        return 1;
    }
    /* r and S stand in the plan's 11 line, and one turn has r * S ticks. */
    rack_plan(tasks, n, plan, sizeof plan);
    uint64_t ring = field(plan + 4, 2);
    uint64_t turn = ring * field(plan + 8, 6);
    printf("%" PRIu64 " switches in a turn of %" PRIu64 " ticks\n", length / 15, turn);
    for (uint64_t p = 1; p <= ring; p++) {
        printf("processor %" PRIu64 " at tick %d: server %" PRIu64 "\n", p, TICK, named(length, p, TICK % turn));
    }
    return 0;
}

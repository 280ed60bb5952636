/* How much stack each function of rack.h is seen to take: it runs on painted memory, and the lowest byte that changed
 * is looked for. A task file on standard input; a line for each function, its name and the bytes. */
#include <rack.h>
#include <stdio.h>
#include <string.h>
#include <ucontext.h>

enum { PAINT = 0xA5, ROOM = 1 << 17 };

static uint8_t stack[ROOM], tasks[4096], out[RACK_SWITCHES_BYTES];
static uint64_t answer[4];
static size_t length;
static uintptr_t top;
static int asked;
static ucontext_t here, there;

static const char *const names[] = {"rack_plan", "rack_switches", "rack_who", "rack_pass"};

static void run(void) {
    __asm__ volatile("mov %%rsp, %0" : "=r"(top));
    switch (asked) {
    case 0: rack_plan(tasks, length, out, sizeof out); break;
    case 1: rack_switches(tasks, length, out, sizeof out, answer, 4); break;
    case 2: rack_who(tasks, length, 1, UINT64_MAX, answer, 4); break;
    case 3: rack_pass(tasks, length, 1, 999, answer, 4); break;
    }
}

int main(void) {
    length = fread(tasks, 1, sizeof tasks, stdin);
    for (asked = 0; asked < 4; asked++) {
        memset(stack, PAINT, sizeof stack);
        getcontext(&there);
        there.uc_stack.ss_sp = stack;
        there.uc_stack.ss_size = sizeof stack;
        there.uc_link = &here;
        makecontext(&there, run, 0);
        swapcontext(&here, &there);
        uint8_t *lowest = stack;
        while (*lowest == PAINT) lowest++;
        printf("%s %zu\n", names[asked], (size_t)(top - (uintptr_t)lowest));
    }
    return 0;
}

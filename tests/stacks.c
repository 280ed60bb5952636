/* What tests/stack.rs must refuse, and a chain of calls whose depth the C compiler says itself. */
#include <stdlib.h>

int itself(int n) { return n ? itself(n - 1) * 3 : 1; }

int about(int n);
int round_about(int n) { return n ? about(n - 1) * 3 : 1; }
int about(int n) { return round_about(n / 2) + 1; }

int pointed(int (*f)(int)) { return f(1) + 1; }

void leap(void) { __asm__ volatile("jmp *%0" : : "r"(leap)); }

int sized(int n) {
    volatile char room[n + 1];
    room[n] = 1;
    return room[n];
}

int outside(int n) { return rand() + n; }

int lowest(int n) {
    volatile char room[300];
    room[n] = 1;
    return room[0];
}

int middle(int n) {
    volatile int room[700];
    room[n] = lowest(n);
    return room[0] + lowest(2);
}

int chain(int n) {
    volatile long room[1000];
    room[n] = middle(n);
    return room[1] + lowest(n);
}

int chosen(int n) {
    switch (n) {
    case 0: return lowest(7);
    case 1: return middle(2) * 3;
    case 2: return lowest(n) + 4;
    case 3: return middle(5) - 1;
    case 4: return chain(8) * 9;
    case 5: return chain(1) - 6;
    }
    return 0;
}

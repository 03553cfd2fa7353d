/* Calls of each kind that scripts/bounds may meet; `leaf` and `deep` aren't put in line. */
#include <alloca.h>
#include <stdint.h>

#define APART __attribute__((noinline, noclone))

void *rattle_alloc(uint64_t bytes);
void rattle_dealloc(void *at);
int elsewhere(int n);

volatile int written;

APART int leaf(int n) {
    volatile char a[40];
    a[n & 31] = (char)n;
    return a[3];
}

APART int deep(int n) {
    volatile int a[100];
    a[n % 100] = leaf(n);
    return a[n % 100] + 1;
}

int chain(int n) { return deep(n) + deep(n + 1); }

int tail(int n) { return deep(n + 1); }

int aligned(int n) {
    __attribute__((aligned(64))) volatile char a[128];
    a[n & 127] = (char)n;
    written = leaf(n);
    return a[0];
}

int choose(int n) {
    switch (n) {
    case 0:
        return leaf(1) + 7;
    case 1:
        return leaf(2) * 3;
    case 2:
        return leaf(4) + 1;
    case 3:
        return leaf(7) ^ 5;
    case 4:
        written = 3;
        return 9;
    case 5:
        return deep(n) - 2;
    case 6:
        return leaf(8) + 3;
    }
    return 0;
}

int choose_twice(int n, int m) {
    int sum = choose(m);
    switch (n) {
    case 0:
        sum += leaf(1) + 7;
        break;
    case 1:
        sum ^= leaf(2) * 3;
        break;
    case 2:
        sum *= leaf(4) + 1;
        break;
    case 3:
        sum -= leaf(7) ^ 5;
        break;
    case 4:
        written = 3;
        break;
    }
    switch (m) {
    case 0:
        return sum + leaf(9) * 7;
    case 1:
        return sum ^ leaf(3) * 5;
    case 2:
        return sum - leaf(5);
    case 3:
        return sum * leaf(6);
    case 4:
        return written;
    }
    return sum;
}

int walk(const int *of, int count) {
    int most = 0;
    for (int i = 0; i < count; i++)
        if (of[i] > most)
            most = leaf(of[i]);
    return most;
}

APART int recur(int n) { return n <= 0 ? leaf(n) : recur(n - 1) + recur(n - 2); }

APART int odd(int n);
APART int even(int n) { return n == 0 ? leaf(n) : odd(n - 1) + 1; }
APART int odd(int n) { return n == 0 ? leaf(n) : even(n - 1) + 2; }
int ask_even(int n) { return even(n) + 1; }

int (*pointer)(int);
int by_pointer(int n) { return pointer(n) + 1; }

int moving(int n) {
    volatile char *a = alloca(n);
    a[n / 2] = 1;
    return leaf(a[n / 2]);
}

int take(int n) { return leaf(n) + (rattle_alloc(n) != 0); }
int pass_on(int n) { return take(n) + 1; }

int give_back(void *at) {
    rattle_dealloc(at);
    return 0;
}

int ask_elsewhere(int n) { return elsewhere(n) + 1; }

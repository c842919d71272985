/* The program of a locker board, for Linux without a C library. With ROUTINE_IN_C it has the routine
 * `fee` and what belongs to it in C. Without, it has placeholders of the same sizes, and the routine
 * comes from the block file: code, data, read-only data, cleared data, and as late words three
 * floating point constants and a jump table. */

int fee(int kind, int hours);
void count(int kind);

extern int tariff[4];
extern const char *const notices[3];
extern int opened[4];

static int calls;
const char notice_free[] = "free\n", notice_paid[] = "paid\n", notice_ask[] = "ask\n";

void count(int kind) { calls += kind + 1; }

#ifdef ROUTINE_IN_C

int tariff[4] = {120, 90, 250, 60};
const char *const notices[3] = {notice_free, notice_paid, notice_ask};
int opened[4];

int fee(int kind, int hours) {
    float cents = (float)hours;
    opened[kind & 3]++;
    count(kind);
    switch (kind) {
    case 0: cents *= 1.19f; break;
    case 1: cents *= 0.75f; break;
    case 2: cents *= 1.19f; cents *= 0.75f; break;
    case 3: return 0;
    case 4: cents *= 2.5f; break;
    case 5: cents = (float)tariff[3]; break;
    default: return -1;
    }
    cents *= (float)tariff[kind & 3];
    return (int)cents;
}

#else

extern int _asmpp_other(int kind);

/* Its code and the reference in it are replaced. */
int _asmpp_t1(int kind, int hours) { return _asmpp_other(kind) + hours; }
__asm__(".section .text\n.org _asmpp_t1 + 220\n.size _asmpp_t1, 220\n");

int _asmpp_d1[4] = {1};
const unsigned _asmpp_r1[3] = {1};
int _asmpp_b1[4];

/* The late words as a compiler leaves them: constants that nothing else has, then a jump table. */
const struct {
    unsigned constants[3];
    int (*table[6])(int, int);
} _asmpp_l1 = {{0xe0123456, 0xe0123457, 0xe0123458},
               {_asmpp_t1, _asmpp_t1, _asmpp_t1, _asmpp_t1, _asmpp_t1, _asmpp_t1}};

#endif

/* Behind the routine, in each section, so that a byte too many or too few would show. */
int behind_data = 77;
const char *const behind_rodata = "behind\n";
int behind_bss;

static int system_call(int number, int a, const void *b, int c) {
    register int v0 __asm__("$2") = number;
    register int a0 __asm__("$4") = a;
    register const void *a1 __asm__("$5") = b;
    register int a2 __asm__("$6") = c;
    register int a3 __asm__("$7");
    __asm__ volatile("syscall" : "+r"(v0), "=r"(a3) : "r"(a0), "r"(a1), "r"(a2) : "memory", "$1", "$3", "$8", "$9", "$10", "$11", "$12", "$13", "$14", "$15", "$24", "$25", "hi", "lo");
    return v0;
}

static void print(const char *text) {
    int length = 0;
    while (text[length]) length++;
    system_call(4004, 1, text, length); /* write */
}

static void print_number(int number) {
    char text[16];
    int at = sizeof text;
    unsigned rest = number < 0 ? -(unsigned)number : (unsigned)number;
    text[--at] = 0;
    text[--at] = '\n';
    do {
        text[--at] = '0' + rest % 10;
        rest /= 10;
    } while (rest);
    if (number < 0) text[--at] = '-';
    print(text + at);
}

void __start(void) {
    for (int kind = -1; kind <= 6; kind++)
        for (int hours = 0; hours <= 3; hours++) print_number(fee(kind, hours));
    for (int i = 0; i < 4; i++) print_number(opened[i]);
    for (int i = 0; i < 4; i++) print_number(tariff[i]);
    for (int i = 0; i < 3; i++) print(notices[i]);
    print_number(calls);
    print_number(behind_data);
    print_number(behind_bss);
    print(behind_rodata);
    system_call(4001, 0, 0, 0); /* exit */
}

/* What a locker costs. The routines are assembly, in fee.s and below; with ROUTINES_IN_C they are C. */

#include "board.h"

#ifdef ROUTINES_IN_C

int tariff[4] = {120, 90, 250, 60};
int opened[4];
const char fee_unit[] = "cents\n";

int fee(int kind, int hours) {
    opened[kind & 3]++;
    if (kind < 0 || kind > 3) return -1;
    int cents = hours * tariff[kind];
    switch (kind) {
    case 1: return cents * 0.5f;
    case 2: return cents * 1.19;
    case 3: return 0;
    default: return cents;
    }
}

int deposit(int kind) { return 2 * fee(kind, 1); }

#else

GLOBAL_ASM("fee.s")

GLOBAL_ASM(
glabel deposit
    addiu $sp, $sp, -24
    sw    $ra, 20($sp)
    jal   fee
    addiu $a1, $zero, 1
    lw    $ra, 20($sp)
    addu  $v0, $v0, $v0
    jr    $ra
    addiu $sp, $sp, 24
)

#endif

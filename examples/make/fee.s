# int fee(int kind, int hours): the price in cents, -1 for a kind that is none.

.late_rodata
glabel fee_cases
    .word .Lfull, .Lhalf, .Ltaxed, .Lfree
glabel fee_half
    .float 0.5
glabel fee_tax
    .double 1.19

.rodata
glabel fee_unit
    .asciz "cents\n"

.data
glabel tariff
    .word 120, 90, 250, 60

.bss
glabel opened
    .space 16

.text
glabel fee
    andi  $t0, $a0, 3
    sll   $t0, $t0, 2
    lui   $t1, %hi(opened)
    addu  $t1, $t1, $t0
    lw    $t2, %lo(opened)($t1)
    addiu $t2, $t2, 1
    sw    $t2, %lo(opened)($t1)
    sltiu $t1, $a0, 4
    beqz  $t1, .Lnone
    lui   $t1, %hi(tariff)
    addu  $t1, $t1, $t0
    lw    $t1, %lo(tariff)($t1)
    mult  $a1, $t1
    mflo  $v0
    lui   $t1, %hi(fee_cases)
    addu  $t1, $t1, $t0
    lw    $t1, %lo(fee_cases)($t1)
    mtc1  $v0, $f0
    jr    $t1
    cvt.d.w $f0, $f0
.Lhalf:
    lui   $t1, %hi(fee_half)
    lwc1  $f2, %lo(fee_half)($t1)
    b     .Lscaled
    cvt.d.s $f2, $f2
.Ltaxed:
    lui   $t1, %hi(fee_tax)
    ldc1  $f2, %lo(fee_tax)($t1)
.Lscaled:
    mul.d $f0, $f0, $f2
    trunc.w.d $f0, $f0
    jr    $ra
    mfc1  $v0, $f0
.Lfree:
    jr    $ra
    move  $v0, $zero
.Lnone:
    jr    $ra
    addiu $v0, $zero, -1
.Lfull:
    jr    $ra
    nop

/* The parts of the program of a locker board. */

int fee(int kind, int hours);
int deposit(int kind);

extern int tariff[4];
extern int opened[4];
extern const char fee_unit[];

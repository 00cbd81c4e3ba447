/* How many instructions an operation on doubles in whole numbers takes, on numbers of a usual size: ADD, SUB, MUL, DIV and LT name the
 * functions, ours or the compiler's. Hands over one number for each, with what the loop and the call take. */
#include "inputs.h"
#include "instructions.h"
#include "machine.h"

uint64_t ADD(uint64_t a, uint64_t b);
uint64_t SUB(uint64_t a, uint64_t b);
uint64_t MUL(uint64_t a, uint64_t b);
uint64_t DIV(uint64_t a, uint64_t b);
uint32_t LT(uint64_t a, uint64_t b);

enum { NUMBERS = 64, ROUNDS = 16 };

static uint64_t numbers[NUMBERS];
static volatile uint64_t result;

#define COUNTED(operation)                                                                                                           \
    do {                                                                                                                             \
        const uint64_t before = instructions();                                                                                      \
        for (uint32_t pair = 0; pair < ROUNDS * NUMBERS; pair++)                                                                     \
            result = operation(numbers[pair % NUMBERS], numbers[(7 * pair + 3) % NUMBERS]);                                          \
        const uint64_t each = (instructions() - before) / (ROUNDS * NUMBERS);                                                        \
        emit(&each, sizeof each);                                                                                                    \
    } while (0)

int program(void)
{
    count_instructions();
    for (int number = 0; number < NUMBERS; number++)
        numbers[number] = pattern_of(any_between(-3, 3));
    COUNTED(ADD);
    COUNTED(SUB);
    COUNTED(MUL);
    COUNTED(DIV);
    COUNTED(LT);
    return 0;
}

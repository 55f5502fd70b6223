// Keeps accounts. Each holds a drawn amount at first; then drawn amounts are moved between drawn accounts, as many times as
// the input says, a number in decimal; then it writes a line for each group of accounts, a digest of what they hold. What an
// account holds decides of nothing before that.
#include "romain.h"

enum { ACCOUNTS = 1024, GROUP = 64 };

static uint32_t balances[ACCOUNTS];

// The next number of a linear congruence.
static uint32_t draw(void)
{
    static uint32_t last = 2026;
    last = last * 1664525 + 1013904223;
    return last >> 8;
}

static void move(void)
{
    uint32_t from = draw() % ACCOUNTS, to = draw() % ACCOUNTS, amount = draw();
    balances[from] -= amount;
    balances[to] += amount;
}

// The number that the input begins with.
static uint32_t read_number(void)
{
    uint8_t text[10];
    uint32_t number = 0;
    int length = (int)read_full(text, sizeof text);
    for (int i = 0; i < length && '0' <= text[i] && text[i] <= '9'; i++)
        number = 10 * number + (text[i] - '0');
    return number;
}

// A number in decimal digits and a line end.
static int print(uint32_t number)
{
    uint8_t digits[11];
    size_t first = sizeof digits - 1;
    digits[first] = '\n';
    do {
        digits[--first] = (uint8_t)('0' + number % 10);
        number /= 10;
    } while (number != 0);
    return write_all(digits + first, sizeof digits - first);
}

int main(void)
{
    uint32_t moves = read_number();
    for (int i = 0; i < ACCOUNTS; i++)
        balances[i] = draw();
    for (uint32_t i = 0; i < moves; i++)
        move();
    for (int i = 0; i < ACCOUNTS; i += GROUP) {
        uint32_t digest = 0;
        for (int k = i; k < i + GROUP; k++)
            digest = 31 * digest + balances[k];
        if (print(digest) != 0)
            return 1;
    }
    return 0;
}

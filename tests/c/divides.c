/* Divisions of every sort, for tests/divisions: it has to find one in each function whose name begins with `divides`,
 * and none in the others. */
#include <stdint.h>

uint64_t divides_quotient(uint64_t a, uint64_t b) { return a / b; }
uint64_t divides_remainder(uint64_t a, uint64_t b) { return a % b; }
int32_t divides_signed(int32_t a, int32_t b) { return a / b; }
uint8_t divides_bytes(uint8_t a, uint8_t b) { return a % b; }
uint64_t divides_in_memory(uint64_t a, const uint64_t *b) { return a / *b; }
double divides_double(double a, double b) { return a / b; }
float divides_float(float a, float b) { return a / b; }
long double divides_long_double(long double a, long double b) { return a / b; }
/* by a function that the compiler brings along */
unsigned __int128 divides_wide(unsigned __int128 a, unsigned __int128 b) { return a / b; }

uint64_t multiplies(uint64_t a, uint64_t b) { return a * b; }
uint64_t by_ten(uint64_t a) { return a / 10 + a % 10; }
uint64_t by_128(uint64_t a) { return a / 128 + a % 128; }

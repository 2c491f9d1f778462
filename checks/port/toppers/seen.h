/* seen.h: the shim answers what fmp_toppers.h answers by itself, and is told of the turns of loops. */
#include <stdint.h>

int32_t shim_answer(int32_t code, uint8_t service, int32_t a, int32_t b);
void shim_turn(void);

#define FMP_ANSWER(code, service, a, b) shim_answer(code, service, a, b)
#define FMP_TURN() shim_turn()

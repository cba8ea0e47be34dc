/* changed by hand: the wait states were 3 */
#include <stdint.h>
#define REG(a) (*(volatile uint32_t *)(a))
enum { DONE, HSE_TIMEOUT, PLL_TIMEOUT, LATENCY_TIMEOUT, SWITCH_TIMEOUT };
int board_init(void)
{
    uint32_t polls;
    REG(0x40023804u) = 0x24003010u;
    REG(0x40023800u) = (REG(0x40023800u) & ~0x00000000u) | 0x01000000u;
    for (polls = 0u; (REG(0x40023800u) & 0x02000000u) != 0x02000000u; ) { if (++polls == 10000u) return PLL_TIMEOUT; }
    REG(0x40023C00u) = 0x00000700u;
    for (polls = 0u; (REG(0x40023C00u) & 0x00000007u) != 0x00000000u; ) { if (++polls == 1000u) return LATENCY_TIMEOUT; }
    REG(0x40023808u) = (REG(0x40023808u) & ~0x0000FCF0u) | 0x00009400u;
    REG(0x40023808u) = (REG(0x40023808u) & ~0x00000003u) | 0x00000002u;
    for (polls = 0u; (REG(0x40023808u) & 0x0000000Cu) != 0x00000008u; ) { if (++polls == 100000u) return SWITCH_TIMEOUT; }
    return DONE;
}

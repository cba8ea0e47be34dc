"""What each limit of the clock tree says, by its number in docs/FORMATS.md."""

MEANING = {
    1: "two signals at one pin",
    2: "two interrupts on one EXTI line",
    3: "the external clock is in use, and has no pin or is outside its range",
    4: "the PLL's input is outside its range",
    5: "the PLL's VCO is outside its range",
    6: "SYSCLK is too fast",
    7: "HCLK is too fast for the voltage scale",
    8: "APB1 (PCLK1) is too fast",
    9: "APB2 (PCLK2) is too fast",
    10: "a peripheral needs exactly 48 MHz from the PLL",
    11: "a peripheral needs at most 48 MHz from the PLL",
    12: "HCLK is too slow for a peripheral",
    13: "the supply or HCLK is outside the flash's table",
    14: "the wish for HCLK",
    15: "the wish for PCLK1",
    16: "the wish for PCLK2",
    17: "over-drive is on, and the PLL is not in use",
}

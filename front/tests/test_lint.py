"""Each kind of note of `lint`: a project that gets it, and beside it one that does not."""
import unittest

import cases

import lint_kinds
import project as projects
import table as tables

TABLE = tables.read(cases.HOME / "tables" / "STM32F407VG.json")


def placed(*pairs):
    """A project with these signals at these pins: `Signal` of the nth stands at line 2n + 1."""
    lines = ["Mcu.Name=STM32F407V(E-G)Tx"]
    for number, (pin, signal) in enumerate(pairs):
        lines += [f"Mcu.Pin{number}={pin}", f"{pin}.Signal={signal}"]
    return lines


CLOCK = ["RCC.HSE_VALUE=8000000", "RCC.PLLM=8", "RCC.PLLN=336", "RCC.PLLQ=7"]
USB = placed(("PA11", "USB_OTG_FS_DM"), ("PA12", "USB_OTG_FS_DP"))
LEDS = placed(("PD12", "GPIO_Output"), ("PD13", "GPIO_Output"))
SDIO = placed(("PC12", "SDIO_CK"), ("PD2", "SDIO_CMD"), ("PC8", "SDIO_D0"))

# the kind, lines that get a note at the line named, lines that get none, and signals that are needed besides
ROWS = (
    ("two-pins", placed(("PB6", "S_TIM4_CH1"), ("PD12", "TIM4_CH1")), 5, placed(("PB6", "S_TIM4_CH1"), ("PD13", "S_TIM4_CH2")), ()),
    ("two-pins", placed(("PA0-WKUP", "S_TIM2_CH1_ETR"), ("PA15", "TIM2_ETR")), 5, LEDS, ()),
    ("two-pins", placed(("PA9", "USART1_TX"), ("PB6", "USART1_TX")), 5, placed(("PA9", "USART1_TX"), ("PB7", "USART1_RX")), ()),
    ("needed-twice", placed(("PB6", "S_TIM4_CH1")), 3, placed(("PB6", "S_TIM4_CH2")), ("TIM4_CH1",)),
    ("interrupt-number", placed(("PA5", "GPXTI0")), 3, placed(("PA5", "GPXTI5")), ()),
    ("unlisted-pin", LEDS + ["PB3.Signal=GPIO_Input"], 6, LEDS + ["VP_X.Signal=Y"], ()),
    ("no-row", placed(("PA2", "USART1_TX")), 3, placed(("PA9", "USART1_TX")), ()),
    ("shared-block", placed(("PB10", "SPI2_SCK"), ("PC3", "I2S2_SD")), 5, placed(("PB10", "SPI2_SCK"), ("PA4", "I2S3_WS")), ()),
    ("timer-channel", LEDS + ["SH.S_TIM1_CH1.ConfNb=2"], 6, LEDS + ["SH.S_TIM1_CH1.ConfNb=1"], ()),
    ("partial-interface", placed(("PA1", "ETH_REF_CLK")), 3, USB, ()),
    ("partial-interface", placed(("PA11", "USB_OTG_FS_DM")), 3, SDIO, ()),
    ("partial-interface", SDIO + ["Mcu.Pin3=PC9", "PC9.Signal=SDIO_D1"], 9, SDIO, ()),
    ("partial-interface", placed(("PD0", "CAN1_RX")), 3, LEDS, ()),
    ("pin-state", LEDS + ["PD12.PinState=GPIO_PIN_SET"], 6, LEDS + ["PD12.PinState=GPIO_PIN_RESET"], ()),
    ("open-drain", LEDS + ["PD12.GPIO_ModeDefaultOutputPP=GPIO_MODE_OUTPUT_OD"], 6,
     LEDS + ["PD12.GPIO_ModeDefaultOutputPP=GPIO_MODE_OUTPUT_PP"], ()),
    ("open-drain", placed(("PA9", "USART1_TX")) + ["PA9.GPIO_Mode=GPIO_MODE_AF_OD"], 4,
     placed(("PB6", "I2C1_SCL")) + ["PB6.GPIO_Mode=GPIO_MODE_AF_OD"], ()),
    ("pull-key", placed(("PB6", "I2C1_SCL")) + ["PB6.GPIO_Pu=GPIO_PULLUP"], 4, placed(("PB6", "I2C1_SCL")) + ["PB6.GPIO_PuPd=GPIO_PULLUP"], ()),
    ("other-key", LEDS + ["PD12.GPIO_FM6=x"], 6, LEDS + ["PD12.GPIO_Label=x"], ()),
    ("interrupt-edge", placed(("PA5", "GPXTI5")) + ["PA5.GPIO_ModeDefaultEXTI=GPIO_MODE_IT_RISING"], 4, placed(("PA5", "GPXTI5")), ()),
    ("low-speed", SDIO, 3, LEDS, ()),
    ("low-speed", placed(("PB3", "SPI1_SCK")), 3, placed(("PB3", "SPI1_SCK")) + ["PB3.GPIO_Speed=GPIO_SPEED_FREQ_HIGH"], ()),
    ("usb-hsi", USB + CLOCK, 0, USB + CLOCK + ["RCC.PLLSourceVirtual=RCC_PLLSOURCE_HSE"], ()),
    ("usb-hsi", USB + ["RCC.PLLSourceVirtual=RCC_PLLSOURCE_HSI"], 6, LEDS, ()),
    # 8 MHz / 4 x 192 / 2 is 192 MHz, and / 8 is 48 MHz; 8 MHz / 8 x 192 / 8 is 24 MHz, and / 10 can't be
    ("pll-range", USB + CLOCK[:1] + ["RCC.PLLSourceVirtual=RCC_PLLSOURCE_HSE", "RCC.PLLM=4", "RCC.PLLN=192"], 9,
     USB + CLOCK[:1] + ["RCC.PLLSourceVirtual=RCC_PLLSOURCE_HSE", "RCC.PLLM=4", "RCC.PLLN=192", "RCC.PLLP=RCC_PLLP_DIV4"], ()),
    ("pll-range", LEDS + CLOCK[:2] + ["RCC.PLLN=184", "RCC.PLLP=RCC_PLLP_DIV8", "RCC.PLLSourceVirtual=RCC_PLLSOURCE_HSE",
                                      "RCC.SYSCLKSource=RCC_SYSCLKSOURCE_PLLCLK"], 9,
     LEDS + CLOCK[:2] + ["RCC.PLLN=192", "RCC.PLLP=RCC_PLLP_DIV8", "RCC.PLLSourceVirtual=RCC_PLLSOURCE_HSE",
                         "RCC.SYSCLKSource=RCC_SYSCLKSOURCE_PLLCLK"], ()),
)


def lines_noted(name, lines, needs):
    kind = next(kind for kind in lint_kinds.KINDS if kind.name == name)
    project = projects.Project("p.ioc", "".join(line + "\n" for line in lines).encode())
    return [line for line, _ in kind.notes(project, TABLE, list(needs))]


class Kinds(unittest.TestCase):
    def test_each_kind(self):
        for name, noted, line, silent, needs in ROWS:
            with self.subTest(name, lines=noted):
                self.assertEqual([line], lines_noted(name, noted, needs))
                self.assertEqual([], lines_noted(name, silent, needs))

    def test_every_kind_has_a_row(self):
        self.assertEqual({kind.name for kind in lint_kinds.KINDS}, {row[0] for row in ROWS})


if __name__ == "__main__":
    unittest.main()

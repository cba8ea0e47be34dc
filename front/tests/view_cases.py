"""A small part with its project, and what the program says of them, for the tests of `view`. Values are by hand."""
import json
import pathlib
import sys

HERE = pathlib.Path(__file__).resolve().parent
sys.path.insert(0, str(HERE.parent))

PINS = ["PA9", "PA10", "PB0", "PB6", "PB7", "PB8", "PB10", "PH0-OSC_IN", "PH1-OSC_OUT"]
TABLE = {
    "version": 1, "names": ["TINY"], "package": "LQFP16", "pins": PINS,
    "package_pins": ["VDD", "PH0-OSC_IN", "PH1-OSC_OUT", "VSS", "PA9", "PA10", "PB0", "PB10", "VDD", "NRST", "VSSA", "VDDA",
                     "PB6", "PB7", "BOOT0", "PB8"],
    "signals": [
        {"name": "USART1_TX", "use": "alt", "at": [["PB6", 7], ["PA9", 7]]},
        {"name": "I2C1_SCL", "use": "alt", "at": [["PB6", 4], ["PB8", 4]]},
        {"name": "USB_OTG_FS_VBUS", "use": "osc", "ip": "USB_OTG_FS", "at": ["PA9"]},
        {"name": "RCC_OSC_IN", "use": "osc", "at": ["PH0-OSC_IN"]},
        {"name": "GPIO_Output", "use": "output"}, {"name": "GPXTI0", "use": "exti"},
    ],
    "ips": [{"name": "USB_OTG_FS", "clock48": "exact", "floor": 14200001}, {"name": "RNG", "clock48": "most", "marks": ["RNG_VS_RNG"]}],
    "limits": {"crystal": [4000000, 26000000], "bypass": [1000000, 50000000], "vco_in": [1000000, 2000000],
               "vco": [100000000, 432000000], "sysclk": 168000000, "pclk1": 42000000, "pclk2": 84000000},
    "scales": [{"vos": 1, "max": 168000000}, {"vos": 2, "max": 144000000}],
    "flash": [{"from": 1800, "to": 2099, "rows": [20000000, 160000000]}, {"from": 2700, "to": 3600, "rows": [30000000, 168000000]}],
}
PROJECT = """#MicroXplorer
Mcu.Name=TINY
Mcu.Pin1=PB7
Mcu.Pin0=PB6
Mcu.Pin10=PB10
Mcu.Pin11=VP_RNG
VP_RNG.Signal=RNG_VS_RNG
PB6.Signal=I2C1_SCL
PB6.GPIO_Label=Audio \\=clock
PB7.Signal=GPIO_Output
PB7.Locked=true
"""
CLOCK = """clock
source PLL
pll HSE 8 336 2 7
hse crystal 8000000
ahb 1 apb1 4 apb2 2 vos 1
VCO_IN 1000000
VCO 336000000
SYSCLK 168000000
HCLK 168000000
PCLK1 42000000
PCLK2 84000000
APB1TIM 84000000
APB2TIM 168000000
CLK48 48000000
vdd 3300 wait 5
"""
PLACEMENT = """rank 7 cost 1 of 4
pins 4
PB8 I2C1_SCL AF4 moved
PB7 GPIO_Output OUTPUT kept
PB10 - HELD kept
PB6 USART1_TX AF7 need
"""
CODE = """#include <stdint.h>
int board_init(void)
{
    return 1 < 2 && DONE;
}
"""
REPORT = PLACEMENT + CLOCK + CODE
TREE = CLOCK.replace("pll HSE 8 336 2 7", "pll HSE 8 336 2 4").replace("CLK48 48000000", "CLK48 84000000") + "limits broken L 10\n"
REFUTATION = "proof 1\nbound none\nH pins 10 12\nend\n"


def table_bytes(**changes):
    return json.dumps({**TABLE, **changes}).encode()

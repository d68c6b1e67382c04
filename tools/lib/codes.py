"""The return codes of ADS, as the program prints them."""

TEXTS = {
    0x6: "target port not found", 0x7: "target machine not found", 0x8: "unknown command id", 0xB: "unknown AMS command", 0xE: "invalid AMS length",
    0x700: "general device error", 0x701: "service not supported", 0x702: "invalid index group", 0x703: "invalid index offset",
    0x704: "reading or writing not permitted", 0x705: "parameter size not correct", 0x706: "invalid parameter value", 0x710: "symbol not found",
    0x711: "symbol version invalid", 0x713: "transmission mode not supported", 0x714: "notification handle invalid", 0x716: "no more notification handles",
    0x717: "size for watch too big", 0x744: "invoke id in use", 0x745: "timeout elapsed", 0x754: "invalid response",
}


def code_text(number):
    return f"0x{number:X} {TEXTS[number]}" if number in TEXTS else f"0x{number:X}"

"""What several of these tools need: the guard of a block, and where the dwords of an NVM command stand."""

# The dwords that `nvme io-passthru` takes by name, and where each stands in the 64 bytes of a command.
DWORDS = {"cdw2": 8, "cdw3": 12, "cdw10": 40, "cdw11": 44, "cdw12": 48, "cdw13": 52, "cdw14": 56, "cdw15": 60}


def crc16(data):
    """The guard of SBC-3, 4.22.4: the remainder of long division by 18BB7h, bit by bit."""
    register = 0
    for byte in data:
        register ^= byte << 8
        for _ in range(8):
            register = (register << 1 ^ (0x8BB7 if register & 0x8000 else 0)) & 0xFFFF
    return register

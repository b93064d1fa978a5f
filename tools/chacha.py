"""The secrets that the program draws under a seed: the stream of ChaCha20, sixteen bytes for each request."""
import struct


def turned(value, by):
    return (value << by | value >> 32 - by) & 0xFFFFFFFF


def quarter(state, a, b, c, d):
    for one, other, mixed, by in ((a, b, d, 16), (c, d, b, 12), (a, b, d, 8), (c, d, b, 7)):
        state[one] = state[one] + state[other] & 0xFFFFFFFF
        state[mixed] = turned(state[mixed] ^ state[one], by)


def block(key, counter):
    """64 bytes of the stream, from this place on."""
    start = [*struct.unpack("<4I", b"expand 32-byte k"), *struct.unpack("<8I", key), counter, 0, 0, 0]
    state = list(start)
    for _ in range(10):
        for a in range(4):
            quarter(state, a, a + 4, a + 8, a + 12)
        for a in range(4):
            quarter(state, a, (a + 1) % 4 + 4, (a + 2) % 4 + 8, (a + 3) % 4 + 12)
    return struct.pack("<16I", *(one + other & 0xFFFFFFFF for one, other in zip(start, state)))


def secrets_of(seed, count):
    """The secrets of the first requests of a run, as texts."""
    stream = b"".join(block(bytes.fromhex(seed), at) for at in range((count + 3) // 4))
    digits = [stream[16 * at:16 * at + 16].hex() for at in range(count)]
    return [f"{it[:8]}-{it[8:12]}-{it[12:16]}-{it[16:20]}-{it[20:]}" for it in digits]

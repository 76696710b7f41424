"""The four block ciphers (docs/ciphers.md), on blocks as big-endian integers.

Each is a list of round keys with layers between them. A layer replaces every byte of the state on its own and then mixes the state by a map that
is linear for exclusive or, so it can be computed by one table for each byte of the state. The tables are made here from the definitions.
"""

from __future__ import annotations

from collections.abc import Callable, Sequence
from functools import lru_cache

from .refusals import Refusal

Tables = tuple[tuple[int, ...], ...]


def _layer(width: int, substitute: Callable[[int], int], mix: Callable[[int], int]) -> Tables:
    """One table for each byte, the first byte first: the byte is substituted in its place, and the rest of the state is zero."""
    places = [8 * (width - 1 - i) for i in range(width)]
    return tuple(tuple(mix(substitute(byte) << place) for byte in range(256)) for place in places)


def _through8(tables: Tables, state: int) -> int:
    a, b, c, d, e, f, g, h = state.to_bytes(8, "big")
    t0, t1, t2, t3, t4, t5, t6, t7 = tables
    return t0[a] ^ t1[b] ^ t2[c] ^ t3[d] ^ t4[e] ^ t5[f] ^ t6[g] ^ t7[h]


def _rounds8(tables: Tables, keys: Sequence[int], state: int) -> int:
    """For each key: the key is added, and the state goes through the layer. Written out, because it is most of the work."""
    t0, t1, t2, t3, t4, t5, t6, t7 = tables
    for key in keys:
        a, b, c, d, e, f, g, h = (state ^ key).to_bytes(8, "big")
        state = t0[a] ^ t1[b] ^ t2[c] ^ t3[d] ^ t4[e] ^ t5[f] ^ t6[g] ^ t7[h]
    return state


def _through16(tables: Tables, state: int) -> int:
    a, b, c, d, e, f, g, h, i, j, k, l, m, n, o, p = state.to_bytes(16, "big")
    t0, t1, t2, t3, t4, t5, t6, t7, t8, t9, t10, t11, t12, t13, t14, t15 = tables
    left = t0[a] ^ t1[b] ^ t2[c] ^ t3[d] ^ t4[e] ^ t5[f] ^ t6[g] ^ t7[h]
    return left ^ t8[i] ^ t9[j] ^ t10[k] ^ t11[l] ^ t12[m] ^ t13[n] ^ t14[o] ^ t15[p]


def _cells(state: int, count: int = 16) -> list[int]:
    """The 4-bit words of a number, the leftmost first."""
    return [state >> 4 * (count - 1 - i) & 15 for i in range(count)]


def _from_cells(cells: Sequence[int]) -> int:
    state = 0
    for cell in cells:
        state = state << 4 | cell
    return state


def _pairs(sbox: Sequence[int]) -> Callable[[int], int]:
    """A 4-bit S-box on both halves of a byte."""
    return lambda byte: sbox[byte >> 4] << 4 | sbox[byte & 15]


def _times(a: int, b: int, modulus: int) -> int:
    """The product of two polynomials over GF(2), reduced."""
    size = modulus.bit_length() - 1
    product = 0
    while b:
        if b & 1:
            product ^= a
        a <<= 1
        if a >> size:
            a ^= modulus
        b >>= 1
    return product


# ---- AES-128 (FIPS 197)

AES_FIELD = 0x11B
AES_MIX = ((2, 3, 1, 1), (1, 2, 3, 1), (1, 1, 2, 3), (3, 1, 1, 2))


def _aes_sbox() -> tuple[int, ...]:
    """The affine map of the inverse in the field, 0 for 0."""
    inverse = [0] * 256
    for x in range(1, 256):
        inverse[x] = next(y for y in range(1, 256) if _times(x, y, AES_FIELD) == 1)
    return tuple(_affine(y) for y in inverse)


def _affine(y: int) -> int:
    mapped = 0x63
    for i in range(8):
        for offset in (0, 4, 5, 6, 7):
            mapped ^= (y >> (i + offset) % 8 & 1) << i
    return mapped


def _shift_rows(state: int) -> int:
    """Byte r + 4c, row r of column c, becomes what stood in column c + r."""
    s = state.to_bytes(16, "big")
    return int.from_bytes(bytes(s[r + 4 * ((c + r) % 4)] for c in range(4) for r in range(4)), "big")


def _mix_columns(state: int) -> int:
    s = state.to_bytes(16, "big")
    mixed = bytearray()
    for c in range(4):
        for row in AES_MIX:
            byte = 0
            for factor, x in zip(row, s[4 * c : 4 * c + 4]):
                byte ^= _times(x, factor, AES_FIELD)
            mixed.append(byte)
    return int.from_bytes(mixed, "big")


@lru_cache
def _aes() -> tuple[tuple[int, ...], Tables, Tables]:
    sbox = _aes_sbox()
    middle = _layer(16, sbox.__getitem__, lambda state: _mix_columns(_shift_rows(state)))
    last = _layer(16, sbox.__getitem__, _shift_rows)
    return sbox, middle, last


@lru_cache(4096)
def _aes_keys(key: bytes) -> tuple[int, ...]:
    sbox, _, _ = _aes()
    words = [key[i : i + 4] for i in range(0, 16, 4)]
    rcon = 1
    for i in range(4, 44):
        word = words[-1]
        if i % 4 == 0:
            a, b, c, d = word
            word = bytes((sbox[b] ^ rcon, sbox[c], sbox[d], sbox[a]))
            rcon = _times(rcon, 2, AES_FIELD)
        words.append(bytes(x ^ y for x, y in zip(words[i - 4], word)))
    return tuple(int.from_bytes(b"".join(words[i : i + 4]), "big") for i in range(0, 44, 4))


def aes128(key: bytes, block: int) -> int:
    _, middle, last = _aes()
    keys = _aes_keys(key)
    for round_key in keys[:9]:
        block = _through16(middle, block ^ round_key)
    return _through16(last, block ^ keys[9]) ^ keys[10]


# ---- PRESENT-80 (Bogdanov et al., CHES 2007)

PRESENT_SBOX = (0xC, 5, 6, 0xB, 9, 0, 0xA, 0xD, 3, 0xE, 0xF, 8, 4, 7, 1, 2)


def _present_p_layer(state: int) -> int:
    """Bit i moves to bit 16i mod 63; bit 63 stays."""
    return sum((state >> i & 1) << (63 if i == 63 else 16 * i % 63) for i in range(64))


@lru_cache
def _present() -> Tables:
    return _layer(8, _pairs(PRESENT_SBOX), _present_p_layer)


@lru_cache(4096)
def _present_keys(key: bytes) -> tuple[int, ...]:
    register = int.from_bytes(key, "big")
    keys = []
    for counter in range(1, 33):
        keys.append(register >> 16)
        register = (register << 61 | register >> 19) & (1 << 80) - 1
        register = PRESENT_SBOX[register >> 76] << 76 | register & (1 << 76) - 1
        register ^= counter << 15
    return tuple(keys)


def present80(key: bytes, block: int) -> int:
    keys = _present_keys(key)
    return _rounds8(_present(), keys[:31], block) ^ keys[31]


# ---- LED (Guo, Peyrin, Poschmann, Robshaw, CHES 2011)

LED_MIX = ((4, 1, 2, 2), (8, 6, 5, 6), (0xB, 0xE, 0xA, 9), (2, 2, 0xF, 0xB))
LED_FIELD = 0x13
LED_CONSTANTS = bytes.fromhex(
    "01 03 07 0F 1F 3E 3D 3B 37 2F 1E 3C 39 33 27 0E 1D 3A 35 2B 16 2C 18 30"
    "21 02 05 0B 17 2E 1C 38 31 23 06 0D 1B 36 2D 1A 34 29 12 24 08 11 22 04"
)


def _led_mix(state: int) -> int:
    """ShiftRows, then MixColumnsSerial."""
    m = _cells(state)
    m = [m[4 * r + (c + r) % 4] for r in range(4) for c in range(4)]
    mixed = [0] * 16
    for r in range(4):
        for c in range(4):
            for k in range(4):
                mixed[4 * r + c] ^= _times(m[4 * k + c], LED_MIX[r][k], LED_FIELD)
    return _from_cells(mixed)


@lru_cache
def _led() -> Tables:
    return _layer(8, _pairs(PRESENT_SBOX), _led_mix)


def _led_constant(round_constant: int, key_bits: int) -> int:
    high, low = round_constant >> 3, round_constant & 7
    size_high, size_low = key_bits >> 4, key_bits & 15
    return _from_cells(
        (size_high, high, 0, 0) + (1 ^ size_high, low, 0, 0) + (2 ^ size_low, high, 0, 0) + (3 ^ size_low, low, 0, 0)
    )


def led_keys(subkeys: Sequence[int], key_bits: int, steps: int) -> tuple[int, ...]:
    """What is added before each round, and at the end: before each step of four rounds and at the end the next subkey in turn, and before each
    round its constant."""
    keys = [_led_constant(LED_CONSTANTS[i], key_bits) for i in range(4 * steps)] + [0]
    for step in range(steps + 1):
        keys[4 * step] ^= subkeys[step % len(subkeys)]
    return tuple(keys)


def led(keys: Sequence[int], block: int) -> int:
    return _rounds8(_led(), keys[:-1], block) ^ keys[-1]


@lru_cache(4096)
def _led80_keys(key: bytes) -> tuple[int, ...]:
    padded = key + bytes(6)
    return led_keys((int.from_bytes(padded[:8], "big"), int.from_bytes(padded[8:], "big")), 80, 12)


def led80(key: bytes, block: int) -> int:
    """LED-80 as the CLOC and SILC submission uses it: the key is padded with zeros to the two subkeys of LED-128."""
    return led(_led80_keys(key), block)


# ---- TWINE-80 (Suzaki, Minematsu, Morioka, Kobayashi, SAC 2012)

TWINE_SBOX = (0xC, 0, 0xF, 0xA, 2, 0xB, 9, 5, 8, 3, 0xD, 7, 1, 0xE, 6, 4)
TWINE_PI = (5, 0, 1, 4, 7, 12, 3, 8, 13, 6, 9, 2, 15, 10, 11, 14)


def _twine_feistel(byte: int) -> int:
    """Two words side by side: S of the left one is added to the right one."""
    return byte ^ TWINE_SBOX[byte >> 4]


def _twine_move(state: int) -> int:
    cells = _cells(state)
    moved = [0] * 16
    for h, place in enumerate(TWINE_PI):
        moved[place] = cells[h]
    return _from_cells(moved)


@lru_cache
def _twine() -> tuple[Tables, Tables]:
    return _layer(8, _twine_feistel, _twine_move), _layer(8, _twine_feistel, lambda state: state)


@lru_cache(4096)
def _twine_keys(key: bytes) -> tuple[int, ...]:
    """The round keys, each word under the left word of its pair. The round adds its key to the S-box's input alone, so the key is taken out again
    after the round, in the places to which its words have moved: that is added together with the next round's key."""
    wk = _cells(int.from_bytes(key, "big"), 20)
    round_keys = []
    con = 1
    for _ in range(36):
        words = [wk[i] for i in (1, 3, 4, 6, 13, 14, 15, 16)]
        round_keys.append(_from_cells([cell for word in words for cell in (word, 0)]))
        wk[1] ^= TWINE_SBOX[wk[0]]
        wk[4] ^= TWINE_SBOX[wk[16]]
        wk[7] ^= con >> 3
        wk[19] ^= con & 7
        con = _times(con, 2, 0x43)
        wk = wk[1:4] + wk[:1] + wk[4:]
        wk = wk[4:] + wk[:4]
    added = [round_keys[0]]
    added += [_twine_move(before) ^ after for before, after in zip(round_keys, round_keys[1:])]
    return (*added, round_keys[35])


def twine80(key: bytes, block: int) -> int:
    moving, still = _twine()
    keys = _twine_keys(key)
    return _through8(still, _rounds8(moving, keys[:35], block) ^ keys[35]) ^ keys[36]


# ---- the cipher interface, and the meter

NO_END = 2**64 - 1
FUNCTIONS: dict[str, tuple[int, int, Callable[[bytes, int], int]]] = {
    "AES-128": (16, 16, aes128),
    "PRESENT-80": (8, 10, present80),
    "LED-80": (8, 10, led80),
    "TWINE-80": (8, 10, twine80),
}


class Cipher:
    """A cipher under a key: its width, and its function on blocks. It has no end."""

    def __init__(self, name: str) -> None:
        self.width, self.key_length, self._function = FUNCTIONS[name]
        self.key = bytes(self.key_length)
        self.left = NO_END

    def set_key(self, key: bytes) -> None:
        if len(key) != self.key_length:
            raise Refusal(1, len(key))
        self.key = key

    def run(self, block: bytes) -> bytes:
        if len(block) != self.width:
            raise Refusal(2, len(block))
        return self.encrypt(int.from_bytes(block, "big")).to_bytes(self.width, "big")

    def encrypt(self, block: int) -> int:
        """A run on a block of the right length, as an integer."""
        return self._function(self.key, block)


class Meter:
    """A quota of runs over any cipher; itself a cipher."""

    def __init__(self, cipher: Cipher | Meter, quota: int) -> None:
        self.below = cipher
        self.quota = quota
        self.width = cipher.width

    @property
    def left(self) -> int:
        return min(self.quota, self.below.left)

    def run(self, block: bytes) -> bytes:
        if len(block) != self.width:
            raise Refusal(2, len(block))
        return self.encrypt(int.from_bytes(block, "big")).to_bytes(self.width, "big")

    def encrypt(self, block: int) -> int:
        if self.left == 0:
            raise Refusal(3)
        if self.quota != NO_END:
            self.quota -= 1
        return self.below.encrypt(block)

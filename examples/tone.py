"""Writes b.wav: three frames of format B, of 12:34:01 to 12:34:03 on day 109, on a carrier of 1 kHz at 8,000 samples in a second."""
import math
import struct
import wave

ONES = {12, 15, 16, 21, 25, 30, 33, 40}  # elements that are one in each frame: those of 12:34 on day 109
POSITIONS = {0, *range(9, 100, 10)}


def tenths(second: int, element: int) -> int:
    """For how many tenths of an element the carrier is high."""
    is_one = element in ONES or element in (1, 2) and second >> element - 1 & 1
    return 8 if element in POSITIONS else 5 if is_one else 2


def cycle(height: int) -> bytes:
    """The samples of one cycle of the carrier."""
    return struct.pack("<8h", *(round(height * math.sin(math.pi / 4 * place)) for place in range(8)))


def main() -> None:
    highs = [8] + [tenths(second, element) for second in (1, 2, 3) for element in range(100)]
    with wave.open("b.wav", "wb") as sound:
        sound.setnchannels(1)
        sound.setsampwidth(2)
        sound.setframerate(8000)
        sound.writeframes(b"".join(cycle(20000 if place < high else 6000) for high in highs for place in range(10)))


main()

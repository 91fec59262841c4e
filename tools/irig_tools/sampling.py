"""How far apart the samples of a recorder were: distances of pulses are off by one sample now and then."""
from __future__ import annotations

from bisect import bisect_left, bisect_right
from collections import Counter
from operator import sub
from typing import Dict, Iterable, List, Mapping, Sequence

from . import limits
from .editor import Listing


def spacing_of_samples(listing: Listing, between: Sequence[int], nominal: int, interval: float, noise: float) -> float:
    """In microseconds; 0 if nothing shows it."""
    off = Counter(int(abs(each - interval)) for each in between if abs(each - interval) >= limits.LEAST_STEP)
    size = min((size for size in off if off[size] + off[size + 1] >= limits.OFF_BY_SAMPLE), default=0)
    found = (sample for sample in _like(size, nominal) if _all_on(listing, sample))
    sample = _spacing_from_begin(listing, off, nominal) or next(found, 0)
    return sample or (0 if noise > limits.ROUNDED else _spacing_of_most(listing, between, interval, off))


def are_often_off(between: Sequence[int], interval: float, sample: float) -> bool:
    """Whether distances are off by a sample again and again, and not only where the clock has gained one."""
    return sum(abs(abs(each - interval) - sample) < limits.LEAST_STEP for each in between) > limits.OFTEN_OFF * len(between)


def _like(size: int, nominal: int) -> List[float]:
    """The spacings by which distances can be off by a size or one more: whole microseconds, or parts of an interval."""
    if size < limits.LEAST_SAMPLE:
        return [size, size + 1] if size else []
    return [size, size + 1, *(nominal / many for many in range(nominal // (size + 2) + 1, nominal // (size - 1) + 1))]


def _all_on(listing: Listing, sample: float) -> bool:
    """Whether all edges are a whole number of samples after the first, up to the rounding of both. A pulse that the recording cuts has
    none where it is cut."""
    rises, falls = listing.rises, listing.falls
    begins, ends = bisect_right(rises, 0), bisect_left(falls, listing.length)
    first = rises[begins] if begins < len(rises) else 0
    return not any(_off(time - first, sample) >= limits.ROUNDED for times in (rises[begins:], falls[:ends]) for time in times)


def _off(time: float, sample: float) -> float:
    """How far a time is from a whole number of samples."""
    return abs(time - round(time / sample) * sample)


def _spacing_from_begin(listing: Listing, sizes: Iterable[int], nominal: int) -> float:
    """The same if even one distance is off by it: a recorder counts its samples from the beginning, and its edges are at one.
    Those of an exact code are at one by chance, or if it begins at a tenth of an interval: then one distance says nothing."""
    each = len(listing.rises) // limits.SOME_PULSES + 1
    some = [*listing.rises[1::each], *listing.falls[1::each]]
    if not some or _off(some[0], nominal / 10) < limits.LEAST_STEP:
        return 0
    far = sorted((size for size in sizes if size >= limits.LEAST_FROM_BEGIN), reverse=True)
    return next((sample for size in far for sample in _like(size, nominal) if _most_on(some, sample)), 0)


def _most_on(times: Sequence[int], sample: float) -> bool:
    """Whether these are a whole number of samples after the beginning, but for those that are damaged or repaired; or all of them half a
    sample more, as an edge between two samples of a level is."""
    halves = (0, sample / 2) if sample >= limits.LEAST_HALVED else (0,)
    return any(sum(_off(time - half, sample) < limits.ROUNDED for time in times) >= limits.ON_SAMPLE * len(times) for half in halves)


def _spacing_of_most(listing: Listing, between: Sequence[int], interval: float, off: Counter[int]) -> float:
    """The same if not all edges are at samples: a repair and a cut know none. If they are near each other only distances show
    them: nearly any time is at one, up to its rounding."""
    often = sorted((-off[size] - off[size + 1], size) for size in off if off[size] + off[size + 1] >= limits.MANY_OFF)
    far = [size for _, size in often if size >= limits.LEAST_SAMPLE]
    near = [size + 1 for _, size in often if size < limits.LEAST_SAMPLE]
    sample = _fitting(listing, between, interval, far[0]) if far else 0
    return sample or (near[0] if near else 0)


def _fitting(listing: Listing, between: Sequence[int], interval: float, size: int) -> float:
    """The spacing, about as large, that fits most lengths; 0 if it fits few."""
    apart = Counter(between)
    lengths = apart + Counter(map(sub, listing.falls, listing.rises))
    off = Counter(abs(each - interval) for each in between if abs(each - interval) >= limits.LEAST_SAMPLE)
    most = range(int(interval / (size + 3)) + 1, int(interval / (size - 2)) + 1)  # samples in an interval
    found = [(_whole(lengths, each), each) for each in (_sample(apart, interval, many) for many in most)]
    sample = max(found, default=(0, 0))[1]
    alike = sample and all(_whole(each, sample) > limits.ON_GRID * sum(each.values()) for each in (lengths, off))
    return sample if alike else 0


def _sample(apart: Dict[int, int], interval: float, many: int) -> float:
    """How far apart samples are if an interval has that many: over all distances, as each is rounded."""
    samples = sum(number * (many + round((each - interval) * many / interval)) for each, number in apart.items())
    return sum(each * number for each, number in apart.items()) / samples


def _whole(lengths: Mapping[float, int], sample: float) -> int:
    """How many of the lengths are a whole number of samples, up to the rounding of both ends."""
    return sum(many for each, many in lengths.items() if _off(each, sample) < limits.ROUNDED)

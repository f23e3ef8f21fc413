"""The words of a seed: PCG XSH RR 64/32 on stream 54, from which simulations, trials and sessions draw."""
import itertools

MASK, MULTIPLIER, INCREMENT = 2 ** 64 - 1, 6364136223846793005, (54 << 1) | 1


def seeded_words(seed):
    """All words of a seed, one after the other."""
    state = ((seed + INCREMENT) * MULTIPLIER + INCREMENT) & MASK
    while True:
        mixed, turn = (((state >> 18) ^ state) >> 27) & 0xFFFFFFFF, state >> 59
        yield ((mixed >> turn) | (mixed << (-turn & 31))) & 0xFFFFFFFF
        state = (state * MULTIPLIER + INCREMENT) & MASK


def words(seed, first, count):
    """So many words of a seed, from a number on."""
    return list(itertools.islice(seeded_words(seed), first, first + count))

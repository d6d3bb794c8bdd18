"""Reed-Solomon words corrected by Euclid's algorithm on polynomials, for the scripts that work out by other means what a program is to print."""

# polynomials are lists of coefficients, the lowest first, with no zero at the end

def trim(p):
    while p and p[-1] == 0:
        p.pop()
    return p


def value(f, p, x):
    all_ = 0
    for c in reversed(p):
        all_ = f.mul(all_, x) ^ c
    return all_


def add_scaled(f, p, c, shift, q):
    """p + c·X^shift·q, in place"""
    p.extend([0] * (len(q) + shift - len(p)))
    for i, a in enumerate(q):
        p[i + shift] ^= f.mul(c, a)
    return trim(p)


def divide(f, p, q):
    p, quotient = list(p), [0] * max(0, len(p) - len(q) + 1)
    while len(p) >= len(q):
        c, shift = f.div(p[-1], q[-1]), len(p) - len(q)
        quotient[shift] = c
        add_scaled(f, p, c, shift, q)
    return trim(quotient), p


def multiply(f, p, q):
    product = []
    for i, a in enumerate(p):
        add_scaled(f, product, a, i, q)
    return product


def through(f, points):
    """The polynomial through points, and the one that vanishes at them."""
    p, vanishing = [], [1]
    for x, y in points:
        add_scaled(f, p, f.div(y ^ value(f, p, x), value(f, vanishing, x)), 0, vanishing)
        vanishing = multiply(f, [x, 1], vanishing)
    return p, vanishing


def near(f, k, points):
    """The polynomial of at most k coefficients that misses at most half of the spare points, if there is one."""
    r, last = through(f, points)
    if len(r) <= k:
        return r
    v, before = [1], []
    while 2 * (len(r) - 1) >= len(points) + k:
        quotient, rest = divide(f, last, r)
        last, r = r, rest
        before, v = v, add_scaled(f, multiply(f, quotient, v), 1, 0, before)
    p, rest = divide(f, r, v)
    return p if not rest and len(p) <= k else None

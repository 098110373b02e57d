/* Numbers of 128 bits, which the compiler works out by calls under these names. */
typedef unsigned long long half;
typedef unsigned __int128 whole;

enum { HALF = 64, QUARTER = 32 };

static whole of(half low, half high)
{
    union {
        half halves[2];
        whole it;
    } both = {{low, high}};
    return both.it;
}

static half low(whole it)
{
    return (half)it;
}

static half high(whole it)
{
    union {
        whole it;
        half halves[2];
    } both = {it};
    return both.halves[1];
}

/* The product of two halves, quarter by quarter. */
static whole product(half a, half b)
{
    half a0 = (unsigned)a, a1 = a >> QUARTER, b0 = (unsigned)b, b1 = b >> QUARTER;
    half least = a0 * b0, middle = a1 * b0 + (least >> QUARTER), other = a0 * b1 + (unsigned)middle;
    return of(other << QUARTER | (unsigned)least, a1 * b1 + (middle >> QUARTER) + (other >> QUARTER));
}

whole __multi3(whole a, whole b)
{
    whole found = product(low(a), low(b));
    return of(low(found), high(found) + low(a) * high(b) + high(a) * low(b));
}

whole __ashlti3(whole it, int by)
{
    if (by == 0)
        return it;
    if (by >= HALF)
        return of(0, low(it) << (by - HALF));
    return of(low(it) << by, high(it) << by | low(it) >> (HALF - by));
}

whole __lshrti3(whole it, int by)
{
    if (by == 0)
        return it;
    if (by >= HALF)
        return of(high(it) >> (by - HALF), 0);
    return of(low(it) >> by | high(it) << (HALF - by), high(it) >> by);
}

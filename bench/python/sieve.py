def job():
    n = 3000
    primes = 0
    last = 0
    for i in range(n):
        k = i + 2
        prime = 1
        d = 2
        while d * d <= k:
            if k % d == 0:
                prime = 0
                break
            d += 1
        if prime:
            primes += 1
            last = max(last, k)
    print("%d primes, the last is %d" % (primes, last))

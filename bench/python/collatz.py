def length(k):
    steps = 1
    while k != 1:
        if k % 2 == 0:
            k = k // 2
        else:
            k = 3 * k + 1
        steps += 1
    return steps


def job():
    n = 1000
    longest = 0
    total = 0
    for i in range(n):
        steps = length(i + 1)
        longest = max(longest, steps)
        total += steps
    print("longest %d, total %d" % (longest, total))

def job():
    n = 24
    trace = 0
    a = [[0] * n for _ in range(n)]
    b = [[0] * n for _ in range(n)]
    c = [[0] * n for _ in range(n)]
    for i in range(n):
        for j in range(n):
            a[i][j] = i * 3 + j
            b[i][j] = i - j * 2
    for i in range(n):
        for j in range(n):
            s = 0
            for k in range(n):
                s += a[i][k] * b[k][j]
            c[i][j] = s
        trace += c[i][i]
    print("%d %d %d" % (c[0][0], c[23][5], trace))

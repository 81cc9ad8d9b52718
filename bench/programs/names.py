def fib(n):
    return n() if n() < 2 else fib(lambda: n() - 1) + fib(lambda: n() - 2)


print(fib(lambda: 16), end="")

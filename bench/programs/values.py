def fib(n, set_result):
    value = n()
    if value < 2:
        set_result(value)
        return
    one = two = 0

    def set_one(number):
        nonlocal one
        one = number

    def set_two(number):
        nonlocal two
        two = number

    fib(lambda: value - 1, set_one)
    fib(lambda: value - 2, set_two)
    set_result(one + two)


fib(lambda: 21, lambda number: print(number, end=""))

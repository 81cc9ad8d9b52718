def add_up(index, set_index, last, before, term, set_result):
    total = 0
    set_index(1)
    while index() <= last():
        before()
        total += term()
        set_index(index() + 1)
    set_result(total)


def main():
    i = j = inner = outer = 0

    def set_i(value):
        nonlocal i
        i = value

    def set_j(value):
        nonlocal j
        j = value

    def set_inner(value):
        nonlocal inner
        inner = value

    def set_outer(value):
        nonlocal outer
        outer = value

    def add_inner():
        add_up(lambda: j, set_j, lambda: 400, lambda: None, lambda: i * j, set_inner)

    add_up(lambda: i, set_i, lambda: 400, add_inner, lambda: inner, set_outer)
    print(outer, end="")


main()

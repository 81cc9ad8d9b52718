def main():
    crossed = [0] * 10001
    i, count = 2, 0
    while i < len(crossed):
        if crossed[i] == 0:
            count += 1
            k = i * i
            while k < len(crossed):
                crossed[k] = 1
                k += i
        i += 1
    print(count, end="")


main()

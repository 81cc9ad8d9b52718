def main():
    turn = total = 0
    while turn < 1000000:
        total += turn
        turn += 1
    print(total, end="")


main()

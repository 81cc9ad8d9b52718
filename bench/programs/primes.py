def main():
    number, count = 2, 0
    while number < 10000:
        divisor, prime = 2, True
        while prime and divisor * divisor <= number:
            if number % divisor == 0:
                prime = False
            else:
                divisor += 1
        if prime:
            count += 1
        number += 1
    print(count, end="")


main()

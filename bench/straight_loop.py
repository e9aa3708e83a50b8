def main():
    s = 0
    i = 0
    while i < 500000:
        s = s + i * 3
        s = s % 1000003
        i = i + 1
    print("s", s)


main()

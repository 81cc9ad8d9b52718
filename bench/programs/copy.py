import sys


def main():
    source, sink = sys.stdin.buffer, sys.stdout.buffer
    byte = source.read(1)
    while byte:
        sink.write(byte)
        byte = source.read(1)


main()

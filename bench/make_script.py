"""Write a script of calls for the line program: python3 bench/make_script.py LINES"""

import random
import sys


def main():
    chance = random.Random(7)
    left = int(sys.argv[1])
    time = 0
    while left > 0:
        time += 1
        session = chance.randrange(8)
        slots = chance.sample(range(4), chance.randrange(1, 4))
        lines = [f"b {session}"]
        lines += [f"f {session} {slot}" for slot in slots]
        lines += [f"r {session} {slot}" for slot in slots]
        port = chance.randrange(65536)
        lines.append(f"w {session} {slots[0]} 10.{port % 256}.0.0/16 block {port}-65535")
        lines.append(f"p {session} {time}.{session}")
        lines.append(f"{chance.choice('ccca')} {session}")
        lines.append(f"l {session}")
        if time % 20 == 0:
            lines.append(f"t {time - 5}.0")
        if time % 7 == 0:
            lines.append(f"k {session} {chance.randrange(time)}")
        sys.stdout.write("".join(line + "\n" for line in lines[:left]))
        left -= len(lines)


main()

"""What the program clean prints of a file, in the plainest way, for the scripts that compare it."""
import subprocess

from raw_pgm import fault_of, lawful, padded, size_of_digits, spoilt

LONGEST = 16640


def eroded(width, height, samples):
    """The second smallest tone of each pixel's window: its own tone, twice, and those of its four neighbours on the card."""
    out = []
    for y in range(height):
        for x in range(width):
            window = []
            for u, v in ((x, y), (x, y), (x - 1, y), (x + 1, y), (x, y - 1), (x, y + 1)):
                if 0 <= u < width and 0 <= v < height:
                    window.append(samples[v * width + u])
            out.append(sorted(window)[1])
    return out


def plain_file(width, height, tones):
    """A picture as `clean` prints it."""
    return "".join(f"{line}\n" for line in ["P2", f"{width} {height}", "255"] + tones).encode()


def raw_header(width, height):
    return f"P5\n{width} {height}\n255\n".encode()


def raw_file(width, height, tones):
    """A picture as `clean raw` prints it."""
    return raw_header(width, height) + bytes(tones)


def refusal(file):
    """What is printed of a file that is too long or no picture; nothing of any other."""
    if len(file) > LONGEST:
        return b"too large\n"
    byte = fault_of(file)
    return None if byte is None else f"refused 23 {byte}\n".encode()


def refused_file(rng):
    """A file that is too long or no picture."""
    while True:
        file, _, _, _ = lawful(rng, lambda rng: size_of_digits(rng, LONGEST))
        if rng.random() < 0.3:
            length = rng.choice((LONGEST + 1, LONGEST + 1, LONGEST + 2, 20000, 100000))
            if length < len(file) + 3:
                continue
            file = padded(file, length)
        if rng.random() < 0.3 and len(file) < LONGEST - 3:
            file = padded(file, LONGEST)
        if len(file) <= LONGEST or rng.random() < 0.3:
            file = spoilt(rng, file)
        if refusal(file):
            return file


def printed(program, arguments, file):
    """The program's status, and what it prints of a file."""
    run = subprocess.run([program, *arguments], input=file, stdout=subprocess.PIPE)
    return run.returncode, run.stdout

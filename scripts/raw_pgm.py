"""Random raw PGM files, lawful ones and faulty ones, for the scripts that compare our programs with others."""

WHITE = b"\t\n\r "
DIGITS = b"0123456789"
# what a comment holds
COMMENT = bytes(byte for byte in range(256) if byte not in b"\n\r")
SIZES = ((1, 1), (1024, 1), (1, 256), (128, 100), (1024, 16))
# the greatest width, height and maxval
LIMITS = (1024, 256, 255)


def gap(rng):
    """White space: a white byte, and then white bytes and comments."""
    out = bytes([rng.choice(WHITE)])
    for _ in range(rng.choice((0, 0, 0, 1, 1, 2, 4))):
        if rng.random() < 0.5:
            out += bytes([rng.choice(WHITE)])
        else:
            body = bytes(rng.choice(COMMENT) for _ in range(rng.randrange(12)))
            out += b"#" + body + rng.choice((b"\n", b"\r"))
    return out


def number(rng, value):
    """A number, with leading zeros or without."""
    return b"0" * rng.choice((0, 0, 0, 1, 3)) + str(value).encode()


def usual_size(rng):
    """A width and a height, mostly small ones."""
    if rng.random() < 0.2:
        return rng.choice(SIZES)
    return rng.randint(1, 40), rng.randint(1, 40)


def number_of_digits(rng, most):
    """A number from 1 to a greatest one: each count of digits as often as another, and often the least or the greatest of them."""
    digits = rng.randint(1, len(str(most)))
    low, high = 10 ** (digits - 1), min(10**digits - 1, most)
    return rng.choice((low, high, rng.randint(low, high), rng.randint(low, high)))


def size_of_digits(rng, pixels):
    """A width and a height of at most so many pixels, with every count of digits."""
    while True:
        width, height = number_of_digits(rng, LIMITS[0]), number_of_digits(rng, LIMITS[1])
        if width * height <= pixels:
            return width, height


def lawful(rng, size=usual_size):
    """A file, with its width, its height and its samples."""
    width, height = size(rng)
    maxval = rng.choice((1, 2, 100, 254, 255, rng.randint(1, 255)))
    samples = [rng.randint(0, maxval) for _ in range(width * height)]
    file = b"P5" + gap(rng) + number(rng, width) + gap(rng) + number(rng, height) + gap(rng) + number(rng, maxval)
    file += bytes([rng.choice(WHITE)]) + bytes(samples)
    return file, width, height, samples


def padded(file, length):
    """The same picture in a file of that length, by a comment behind the mark; there is room for one."""
    return file[:2] + b"\n#" + b"." * (length - len(file) - 3) + b"\n" + file[2:]


def end_of(file, at, inside):
    """The first place from there on that holds none of these bytes, or the file's end."""
    while at < len(file) and file[at] in inside:
        at += 1
    return at


def fault_of(file):
    """The byte of the file's first fault; nothing where it is a picture."""
    for at, right in enumerate(b"P5"):
        if at >= len(file) or file[at] != right:
            return at
    at, numbers = 2, []
    for most in LIMITS:
        if at < len(file) and file[at] not in WHITE:
            return at
        while at < len(file) and file[at] not in DIGITS:
            if file[at] == ord("#"):
                at = end_of(file, at, COMMENT)
            elif file[at] not in WHITE:
                return at
            at += 1
        if at >= len(file):
            return len(file)
        end = end_of(file, at, DIGITS)
        numbers.append(int(file[at:end]))
        if not 1 <= numbers[-1] <= most:
            return at
        at = end
    if at == len(file) or file[at] not in WHITE:
        return at
    samples, count = file[at + 1 :], numbers[0] * numbers[1]
    if len(samples) != count:
        return min(len(file), at + 1 + count)
    return next((at + 1 + place for place, sample in enumerate(samples) if sample > numbers[2]), None)


def spoilt(rng, file):
    """A faulty file that was made of a lawful one: cut, or with a byte changed, left out or put in, mostly near its start."""
    while True:
        at = rng.randrange(min(len(file), rng.choice((2, 20, 60, len(file)))))
        byte = bytes([rng.choice((rng.randrange(256), *b"P5#0123456789 \n\v\f-+.", 255))])
        found = rng.choice((
            file[:at], file[:at] + byte + file[at + 1 :], file[:at] + file[at + 1 :], file[:at] + byte + file[at:], file + byte
        ))
        if fault_of(found) is not None:
            return found

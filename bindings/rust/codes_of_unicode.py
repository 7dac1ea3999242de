"""codes_of_unicode.py [FILE]: the borders of the codes to which Unicode 18 assigns no character, beside the older Unicode of Python's own: what was assigned once stays so.
How many codes were compared."""
import os, re, sys, unicodedata

here = os.path.dirname(os.path.abspath(__file__))


def wrong(path):
    """The first code that Python has a character for, and the table none."""
    with open(path) as file:
        borders = [int(word, 16) for word in re.findall(r'0x[0-9a-f]+', file.read())]
    outside = {code for low, high in zip(borders[::2], borders[1::2]) for code in range(low, high)}
    return next((code for code in range(0x110000) if code in outside and unicodedata.category(chr(code)) != 'Cn'), None)


if __name__ == '__main__':
    code = wrong(sys.argv[1] if len(sys.argv) > 1 else os.path.join(here, 'quick/kit/unassigned.rs'))
    print(f'{0x110000} codes beside Unicode {unicodedata.unidata_version}' if code is None else f'FAIL: U+{code:04X} has a character')
    sys.exit(code is not None)

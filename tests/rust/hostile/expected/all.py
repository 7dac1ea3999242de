"""What the lines have to be: `python3 expected/all.py > expected.txt`, in tests/rust/hostile. It takes two of the scripts beside it."""

import exchange
import streams

if __name__ == "__main__":
    streams.show_cuts()
    streams.show_session()
    exchange.show_all()

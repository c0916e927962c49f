"""Makes the lines of the recorded list (crates/replay, recorded): its script is compare/'s, answered by the original Rust
(`against record`); here it is answered by gateway.py, and both must say the same.

    python3 reference/make_recorded.py
"""

import os

from script import RUNNER, Machine, store


def main():
    with open(os.path.join(RUNNER, "data", "recorded"), "rb") as file:
        script = file.read()
    machine = Machine()
    machine.replay(script)
    store("recorded", script, machine.lines)


if __name__ == "__main__":
    main()

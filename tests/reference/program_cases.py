"""Runs the program target/bin/windowfloor on the jobs of examples/, whose
output is stored there, on the jobs of the job cases and on longer input, and
compares what it prints with the independent implementation. Exits with 1 if
one differs, or if no text is as long as a text can be."""

import subprocess
import sys
import time
from pathlib import Path

sys.dont_write_bytecode = True
import windowfloor as wf
from job_cases import all_cases, job_of

ROOT = Path(__file__).resolve().parents[2]
PROGRAM = ROOT / "target/bin/windowfloor"
EXAMPLES = ROOT / "examples"
MOST_BYTES = 65_535
MOST_TEXT = 24_064  # bytes of a text: 64 rows, and 2,048 coefficients in all, of numbers of ten digits


def run(data):
    """Standard output and standard error of the program."""
    done = subprocess.run([PROGRAM], input=data, capture_output=True, timeout=60)
    return done.stdout, done.stderr


def run_in_pieces(data, size):
    """The same with the job written in pieces, with pauses."""
    with subprocess.Popen([PROGRAM], stdin=subprocess.PIPE, stdout=subprocess.PIPE,
                          stderr=subprocess.PIPE) as program:
        for at in range(0, len(data), size):
            program.stdin.write(data[at:at + size])
            program.stdin.flush()
            time.sleep(0.002)
        return program.communicate(timeout=60)


def differs(name, printed, expected):
    if printed == (expected, b""):
        return False
    print(f"differs: {name}: {printed!r:.200}, not {expected!r:.200}")
    return True


def example_cases():
    """Each job of examples/ with its stored output; some of them also as hexadecimal."""
    for path in sorted(EXAMPLES.glob("*.job")):
        yield path.name, run(path.read_bytes()), path.with_suffix(".txt").read_bytes()
    for path in sorted(EXAMPLES.glob("*.hex")):
        yield path.name, (bytes.fromhex(path.read_text()), b""), path.with_suffix(".job").read_bytes()


def job_cases(jobs):
    for data, printed in jobs.items():
        yield f"job {data[:40].hex()}", run(data), printed


def longest_with(jobs, kind, word):
    """The longest job of a kind that prints a line of this word."""
    return max((data for data, printed in jobs.items() if data[3:4] == kind and word in printed), key=len)


def longer_cases(jobs):
    """Input that starts with a longest accepted job, also with blocks: it is refused and not cut short."""
    for kind, word, printed in ((b"\1", b"floor", b"refused 12 0\n"), (b"\1", b"blocks", b"refused 12 0\n"),
                                (b"\3", b"scale", b"refused 12 0 0\n")):
        longest = longest_with(jobs, kind, word)
        assert len(longest) > MOST_BYTES - 16
        for more in (1, 2, 12, 20_000, 200_000):
            data = longest + bytes(MOST_BYTES - len(longest) + more)
            yield f"{len(data)} bytes", run(data), printed


def piece_cases(jobs):
    of_rows = [data for data in jobs if data[:4] == b"\1\0\1\3" and len(data) < 500]
    of_blocks = [data for data, printed in jobs.items() if b"blocks" in printed and len(data) < 300]
    for data in list(jobs)[:40] + of_rows[-40:] + of_blocks[-40:]:
        yield f"pieces of {data[:40].hex()}", run_in_pieces(data, 7), jobs[data]


def unreadable():
    """A folder as standard input: nothing is printed, and standard error says why."""
    with subprocess.Popen(["sh", "-c", f'exec "{PROGRAM}" < "{ROOT}"'], stdout=subprocess.PIPE,
                          stderr=subprocess.PIPE) as program:
        yield "a folder", program.communicate(timeout=60)[::-1], b"windowfloor: standard input cannot be read\n"


def main():
    jobs = {data: wf.program(data) for data in dict.fromkeys(map(job_of, all_cases()))}
    cases = 0
    failed = 0
    for part in (example_cases(), job_cases(jobs), longer_cases(jobs), piece_cases(jobs), unreadable()):
        for case in part:
            cases += 1
            failed += differs(*case)
    longest = max(map(len, jobs.values()))
    print(f"{cases} runs of the program, {failed} differ; the longest text has {longest} bytes")
    return 1 if failed or longest != MOST_TEXT else 0


if __name__ == "__main__":
    sys.exit(main())

"""The second program, for the tests that ask it: built, asked many calls at once, and the betas that make a difference to PG."""
import fractions, subprocess


def build(root):
    """The program, built."""
    target = root / "second/target"
    subprocess.run(["cargo", "build", "--release", "--offline", "--quiet", "--manifest-path", root / "second/Cargo.toml", "--target-dir", target], check=True)
    return target / "release/second"


def ask(second, calls):
    """What is said, and the totals, of each call; a call is the words of --run, with a space between."""
    ran = subprocess.run([second, "--runs"], input="\n".join(calls), capture_output=True, text=True, check=True)
    answers = list(zip(*[iter(ran.stdout.split("\n"))] * 2))
    assert len(answers) == len(calls), (len(answers), len(calls))
    return [(said, [int(total) for total in totals.split()]) for said, totals in answers]


def betas(values):
    """One beta for each way in which PG can decide on these values, rising.

    PG asks of a held v and an arrival w whether v x num <= w x den, that is, whether beta <= w/v. So it does the same with all betas above one quotient of
    two values and up to the next one: each quotient above 1 stands for them, and a beta above them all."""
    quotients = sorted({fractions.Fraction(w, v) for w in values for v in values if w > v})
    return [*quotients, fractions.Fraction(int(max(quotients, default=1)) + 1)]

"""How the tools of the Rust crate run cargo, and what they read off it."""
import os
import re
import subprocess

import copies

# Settings of the caller's that would make this another build than the plain one.
UNSET = ("HANJOLUM_LIBRARY", "RUSTFLAGS", "CARGO_ENCODED_RUSTFLAGS", "RUSTDOCFLAGS", "CARGO_BUILD_TARGET")
# The lines of cargo's that say why it failed, the most telling first; a failing test's message follows its place.
TELLING = (r"^hanjolum: ", r"^error(\[\w+\])?: (?!failed to run custom|could not compile|test failed)", r"^warning", r"panicked", r"^Diff", r".")


def cargo(folder, target, *words, **more):
    """Runs cargo in a folder, with what it makes in another, and answers what it printed; fails with the line that says why."""
    env = {name: value for name, value in os.environ.items() if name not in UNSET} | {"CARGO_TERM_COLOR": "never"} | more
    command = ["cargo", *words] + ([] if words[0] == "fmt" else ["--offline", "--target-dir", str(target)])
    ran = subprocess.run(command, cwd=folder, env=env, capture_output=True, text=True, check=False)
    if ran.returncode != 0:
        lines = [line.strip() for line in (ran.stderr + ran.stdout).splitlines()]
        at = next((at for sign in TELLING for at, line in enumerate(lines) if re.search(sign, line)), None)
        said = ["nothing"] if at is None else lines[at : at + 1 + ("panicked" in lines[at])]
        copies.fail(f"cargo {words[0]}: {' '.join(said)[:300]}")
    return ran.stdout


def tested(folder, target, *words, **more):
    """Runs the crate's tests. Answers how many there were, and how many examples of the documentation; there must be some of the first."""
    out = cargo(folder, target, "test", *words, **more)
    examples = len(re.findall(r"^test src/\S+ - .* \.\.\. ok$", out, re.M))
    tests = sum(int(number) for number in re.findall(r"^test result: ok\. (\d+) passed", out, re.M)) - examples
    if tests <= 0:
        copies.fail("cargo test: no test was run")
    return tests, examples

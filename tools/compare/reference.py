"""The reference's harness, the program `drive`, and what both print for jobs."""
import os
import re
import subprocess
import sys

ROOT = os.path.dirname(os.path.dirname(os.path.dirname(os.path.abspath(__file__))))


def built_reference(folder):
    """The harness of the reference, built from the Rust package in the folder."""
    target = os.path.join(ROOT, "target", "reference")
    said = subprocess.run(
        ["cargo", "build", "--release", "--offline", "--quiet", "--bin", "oracle", "--target-dir", target],
        cwd=folder, env=dict(os.environ, RUSTC_BOOTSTRAP="1"), capture_output=True, text=True)
    if said.returncode:
        sys.exit("the reference does not build:\n" + said.stderr)
    return os.path.join(target, "release", "oracle")


def built_program(name):
    """A program of this repository, proved and built."""
    folder = os.path.join(ROOT, "crates", name)
    said = subprocess.run(["rt", "run"], cwd=folder, stdin=subprocess.DEVNULL, capture_output=True, text=True)
    path = os.path.join(folder, "out", name)
    if not os.path.exists(path):
        sys.exit("%s does not build:\n%s" % (name, said.stderr[-2000:]))
    return path


def jobs_of(path):
    """The jobs of a file, a line each."""
    return [line.strip() for line in open(path) if line.strip()]


def is_program(job):
    """Whether a job is an input of the program `simplify`."""
    return job.startswith("program:")


def answers(command, jobs):
    """What a command prints for each job, without the line that ends it."""
    said = subprocess.run(command, input="".join(job + "\n" for job in jobs), capture_output=True, text=True)
    texts = re.split(r"^\.\n", said.stdout, flags=re.M)
    if said.returncode or len(texts) != len(jobs) + 1:
        sys.exit("%s stopped at job %d: %s" % (command[0], len(texts), said.stderr[-2000:]))
    return texts[:-1]


def taken_out(bracket):
    nodes = sorted(int(word.split("-")[0]) for word in bracket[1].split())
    return " [%s]" % " ".join(map(str, nodes))


def reference_answers(reference, jobs):
    """What the reference prints for each job. Of the nodes that a call took out it says, in the order in which they went, how many
    clauses each elimination removed and entered; `drive` has their numbers, rising, and so do these."""
    return [re.sub(r" \[([^\]]*)\]$", taken_out, text, flags=re.M) for text in answers([reference], jobs)]

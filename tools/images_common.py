"""What tools/compare and tools/compare_host share: the images, running plancheck, telling a difference."""
import argparse, subprocess, sys
from pathlib import Path

HERE = Path(__file__).resolve().parent
ROOT = HERE.parent
sys.path[:0] = [str(HERE), str(HERE / "oracle")]

SECONDS = 900       # for one image: a search that does not close can take long


def options(doc):
    def seeds(text):
        first, _, last = text.partition("-")
        return range(int(first), int(last or first) + 1)
    parser = argparse.ArgumentParser(description=doc, formatter_class=argparse.RawDescriptionHelpFormatter)
    parser.add_argument("--seeds", "--seed", type=seeds, default="1-20", metavar="A-B", help="default: 1-20")
    parser.add_argument("--count", type=int, default=100, metavar="N", help="images of each seed, default: 100")
    parser.add_argument("--program", type=Path, metavar="PATH", help="default: plancheck is built")
    return parser


def run(*words, folder=ROOT):
    """Runs a command of the build; its failure ends this with 2."""
    print("building:", *words, flush=True)
    if subprocess.run(words, cwd=folder, stdin=subprocess.DEVNULL).returncode != 0:
        sys.exit(2)


def plancheck():
    """Proves and builds the program. `rt run` also runs it once, on no input."""
    run("rt", "run", folder=ROOT / "crates/plancheck")
    return ROOT / "crates/plancheck/out/plancheck"


def staticlib():
    """Proves and builds the library for C."""
    run("tools/staticlib")
    return ROOT / "target/staticlib/libimage.a"


def start(program, stdin=subprocess.PIPE):
    return subprocess.Popen([program], stdin=stdin, stdout=subprocess.PIPE, bufsize=0)


def finish(process, image=None, seconds=SECONDS):
    """What the process prints once it has been fed the image, and its status if that is not 0."""
    try:
        out, _ = process.communicate(image, timeout=seconds)
    except subprocess.TimeoutExpired:
        process.kill()
        process.wait()
        return b"no end within %d seconds" % seconds
    return out if process.returncode == 0 else out + b" and status %d" % process.returncode


def difference(name, image, expected, came):
    print(f"DIFFERENCE: {name}\nimage:    {image.hex()}\nexpected: {expected}\ncame:     {came}", flush=True)
    sys.exit(1)


def examples():
    """The images of examples/, as pairs of a name and the image."""
    return [(str(path), path.read_bytes()) for path in sorted((ROOT / "examples").glob("*.img"))]


def generated(seed, count):
    """The images of a seed, as pairs of a name and the image."""
    rows = subprocess.check_output([sys.executable, HERE / "oracle/images.py", str(seed), str(count)], text=True)
    images = [bytes.fromhex(row) for row in rows.split("\n")[:-1]]
    return [(f"seed {seed}, image {at}", image) for at, image in enumerate(images)]

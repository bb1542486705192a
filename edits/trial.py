"""What edits/run and mutants/run share: a changed copy of a crate, checked by rt over what its checks before left, and what the prover
said of it. The copies stand outside the repository, since rt ci reads every source below it."""
import atexit, os, pathlib, shutil, signal, subprocess, sys, tempfile

sys.dont_write_bytecode = True
sys.path.append(str(pathlib.Path(__file__).resolve().parent.parent / "tools"))
from rattle import ROOT, depends

LIMIT = 900
JOBS = int(os.environ.get("RT_JOBS") or os.cpu_count() or 1)
COPIES = pathlib.Path(tempfile.mkdtemp(prefix="bredonych-"))
atexit.register(shutil.rmtree, COPIES, ignore_errors=True)
signal.signal(signal.SIGTERM, lambda *_: sys.exit(2))


def wrong_word(command, why):
    """Ends a command that was given a wrong word."""
    print(f"{command}: {why} ({command} --help)", file=sys.stderr)
    sys.exit(2)


def room(crate, worker=0):
    """Where a worker's changed copies of a crate stand: in a copy of the repository, whose crates rt builds as it needs them."""
    top = COPIES / f"room.{worker}"
    if not top.is_dir():
        shutil.copytree(ROOT / "crates", top / "crates", ignore=shutil.ignore_patterns("out", "must-fail"))
        shutil.copy(ROOT / "crates.txt", top)
    return top / "crates" / crate


def copied(crate, where):
    """The crate's text at `where`, in place of what stood there; what rt keeps beside it stays."""
    for part in ("src", "specs", "proofs"):
        shutil.rmtree(where / part, ignore_errors=True)
        if (ROOT / "crates" / crate / part).is_dir():
            shutil.copytree(ROOT / "crates" / crate / part, where / part)


def asked(command, log, where):
    """Runs a command; its exit status, None where it took too long, and was ended with all that it had started."""
    with open(log, "w") as out:
        run = subprocess.Popen(command, stdin=subprocess.DEVNULL, stdout=out, stderr=subprocess.STDOUT, cwd=where, start_new_session=True)
        try:
            return run.wait(LIMIT)
        except subprocess.TimeoutExpired:
            os.killpg(run.pid, signal.SIGKILL)
            run.wait()
            return None


def kept(crate):
    """Ends the command where the crate as it stands is not proved."""
    log = ROOT / "target" / f"{crate}.log"
    log.parent.mkdir(exist_ok=True)
    if asked(["rt", "check"], log, ROOT / "crates" / crate) != 0:
        sys.exit(f"{crate} is not proved: target/{crate}.log says why")


def quickly(where, log):
    """A check of a changed copy, over what the checks before it left; what is proved so is proved again from nothing."""
    status = asked(["rt", "check", "--jobs", "1"], log, where)
    return asked(["rt", "verdict"], log, where) if status == 0 else status


def reached(status, log):
    """Whether a check that was refused got as far as the prover."""
    return status == 1 and "\nlogic=not-proved" in log.read_text(errors="replace")


def errors(log):
    """The errors in a log, by docs/refused: kind (fact, shape or follows), file, declaration, words."""
    said = subprocess.run([ROOT / "docs" / "refused", log], capture_output=True, text=True).stdout
    return [line.split("\t") for line in said.split("\n") if line]

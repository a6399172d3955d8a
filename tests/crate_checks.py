"""How the scripts beside this file have the prover check a crate, over the libraries as they lie in this repository."""
import pathlib
import shutil
import subprocess

TOP = pathlib.Path(__file__).resolve().parent.parent


def copy_tracked(to):
    """Copies what git tracks of the crates, as it is in the work tree."""
    words = ["git", "ls-files", "-z", "--", "crates", "crates.txt", "HANDLES"]
    listed = subprocess.run(words, cwd=TOP, capture_output=True, check=True).stdout.decode()
    for name in filter(None, listed.split("\0")):
        if (TOP / name).is_file():
            (to / name).parent.mkdir(parents=True, exist_ok=True)
            shutil.copyfile(TOP / name, to / name)


def libraries_of():
    """What the line of each crate in crates.txt names, but for those of another kind than libraries and programs of Rattle."""
    lines = (line.split("#")[0].partition(":") for line in (TOP / "crates.txt").read_text().splitlines())
    return {name.strip(): rest.split() for name, _, rest in lines if len(name.split()) == 1}


def below(named, crate, found):
    """The crates of this repository below one, each once."""
    for other in named[crate]:
        if other in named and other not in found:
            found.append(other)
            below(named, other, found)
    return found


def library(crate):
    return TOP / "crates" / crate / "out" / "rlib" / f"{crate}.rlib"


def is_new(crate):
    """Whether the library of a crate was built, or laid there, after its files were written."""
    files = [it for part in ("src", "specs", "proofs") for it in (TOP / "crates" / crate / part).rglob("*") if it.is_file()]
    built = library(crate) / "format"
    return built.is_file() and all(it.stat().st_mtime <= built.stat().st_ctime for it in files)


def words_of_check(named, crate, jobs=1):
    """The words by which rt checks a crate, over the libraries as they lie there."""
    kit = pathlib.Path(shutil.which("rt")).resolve().parent.parent
    root = next(it for it in ("src/main.rt", "src/lib.rt") if (TOP / "crates" / crate / it).is_file())
    words = [kit / "bin" / "rattle", "check", "--crate-name", crate, root, "-L", f"dependency={kit / 'rlibs'}"]
    for name in ["std", *named[crate]]:
        words += ["--extern", f"{name}={library(name) if name in named else kit / 'rlibs' / f'{name}.rlib'}"]
    for name in below(named, crate, []):
        words += ["-L", f"dependency={library(name).parent}"]
    logic = ["--antt-project", kit / "rattle" / "logic" / "antt-project.json", "--logic-built", kit / "logic_built"]
    return [*map(str, [*words, *logic]), "--links", f"{crate}=", "--jobs", str(jobs)]


def check(words, folder, kept):
    """Checks a crate in a folder by these words, over what was kept in another."""
    return subprocess.run(
        [*words, "--incremental", str(kept)], cwd=folder, stdin=subprocess.DEVNULL, stdout=subprocess.PIPE,
        stderr=subprocess.STDOUT, errors="replace", check=False,
    )

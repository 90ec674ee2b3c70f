"""What `try`, `check` and `speed` share: building, running, and ending in time."""
import pathlib
import shutil
import signal
import subprocess

HERE = pathlib.Path(__file__).resolve().parent
OF_A_CLUSTER = "ceph-mon ceph-mgr ceph-osd ceph-common python3-rados"


class Failed(Exception):
    """What wasn't as it should be."""


def end_by_signals(seconds):
    """Has the signals that end this process, and the end of the time it may take, raise an exception, so that a cluster is ended too."""
    def end(number, _):
        raise Failed(f"not done in {seconds} s" if number == signal.SIGALRM else f"ended by signal {number}")
    for number in (signal.SIGTERM, signal.SIGHUP, signal.SIGINT, signal.SIGALRM):
        signal.signal(number, end)
    signal.alarm(seconds)


def run(*words, seconds=900, **more):
    """A program's standard output, with bytes for its standard input as `input`."""
    try:
        done = subprocess.run(words, stdout=subprocess.PIPE, stderr=subprocess.PIPE, timeout=seconds, check=False, **more)
    except subprocess.TimeoutExpired:
        raise Failed(f"{words[0]} took more than {seconds} s") from None
    if done.returncode:
        raise Failed(f"{' '.join(map(str, words))}: {done.returncode} {done.stderr.decode(errors='replace')[-500:]}")
    return done.stdout


def expect_packages(names):
    """Ends this process with a line where a package isn't there."""
    for name in names.split():
        told = subprocess.run(["dpkg-query", "-W", "-f", "${Status}", name], stdout=subprocess.PIPE, stderr=subprocess.DEVNULL, check=False).stdout
        if not told.endswith(b" installed"):
            raise SystemExit(f"{name} isn't installed: apt-get install --no-install-recommends {names}")


def build(*words):
    """Builds the plugin (`build` says what the words are); its path."""
    told = subprocess.run([HERE / "build", *words], stdout=subprocess.PIPE, text=True, check=False)
    if told.returncode:
        raise SystemExit(told.returncode)  # it has said why
    return pathlib.Path(told.stdout.strip())


def libraries():
    """Where Debian's libraries for this machine lie."""
    return pathlib.Path("/usr/lib") / run("gcc", "-print-multiarch").decode().strip()


def build_driver(program):
    """Builds drive.cc with the registry in it, which plugins find there (-rdynamic)."""
    ceph = libraries() / "ceph"
    run("g++", "-std=c++17", "-O2", "-g", "-Wall", "-Wextra", "-Werror", HERE / "drive.cc", HERE / "registry.cc", "-o", program, "-rdynamic",
        f"-L{ceph}", "-l:libceph-common.so.2", f"-Wl,-rpath,{ceph}", "-lrados", "-ldl")


def link_plugins(folder, plugin):
    """Makes a folder of Ceph's own plugins and of the one that is given."""
    folder.mkdir(exist_ok=True)
    for own in (libraries() / "ceph" / "erasure-code").glob("libec_*.so"):
        if own.name != "libec_hijpswol.so":
            (folder / own.name).symlink_to(own)
    shutil.copy(plugin, folder / "libec_hijpswol.so")

"""The peers: what they need, how their drivers are built, and how a workload is measured with one."""
import glob
import hashlib
import json
import os
import re
import resource
import shutil
import signal
import subprocess
import sys
import tempfile
import time
from concurrent.futures import ThreadPoolExecutor

import library
import texts

HERE = os.path.dirname(os.path.abspath(__file__))
OUT = f"{HERE}/out"
NATIVE = f"{OUT}/native"
BIN = f"{OUT}/target/release"
TEXTS = f"{OUT}/texts"
PACKAGES = ("librust-fancy-regex-dev", "librust-regex-dev", "libonig-dev", "libpcre2-dev", "libre2-dev", "libc6-dev", "gcc", "g++")

# The name of a peer on the command line; its program; what is set in its environment; its name in tables; its package
PEERS = {
    "port": ("port", {}, "this library", None),
    "seek": ("port", {"BENCH_SEEK": "1"}, "this library, `seek`", None),
    "fancy": ("fancy", {}, "fancy-regex", "librust-fancy-regex-dev"),
    "regex": ("regex", {}, "regex", "librust-regex-dev"),
    "re2": ("re2", {}, "RE2", "libre2-dev"),
    "onig": ("onig", {}, "Oniguruma", "libonig-dev"),
    "pcre2": ("pcre2", {"BENCH_INTERPRETER": "1"}, "PCRE2, interpreter", "libpcre2-dev"),
    "jit": ("pcre2", {}, "PCRE2, JIT", "libpcre2-dev"),
    "python": ("python", {}, "Python `re`", None),
    "kit": ("kit", {}, "the toolchain's `regex`", None),
}
# (lists by line and sets have no form with options in the library's C function)
NOT_SEEKING = ("find_lines", "find_lines_held", "captures_lines", "fresh_lines", "tokens", "set_all")


def say(text):
    print(f"bench: {text}", file=sys.stderr, flush=True)


def output(*words):
    """What a command prints, or nothing where it fails."""
    try:
        return subprocess.run(words, capture_output=True, text=True).stdout.strip()
    except OSError:
        return ""


def version(peer):
    """The version of a peer."""
    package = PEERS[peer][3]
    if package:
        return re.split("[-+]", output("dpkg-query", "-W", "-f", "${Version}", package))[0]
    if peer == "python":
        return sys.version.split()[0]
    if peer == "kit":
        return output("rt", "version").split(" ")[0]
    return ""


def is_installed(package):
    return output("dpkg-query", "-W", "-f", "${db:Status-Status}", package) == "installed"


def install(*more):
    """Installs the packages that are missing."""
    os.makedirs(OUT, exist_ok=True)
    missing = [it for it in (*PACKAGES, *more) if not is_installed(it)]
    if not missing:
        return
    say(f"installing {' '.join(missing)}")
    with open(f"{OUT}/install.log", "w", encoding="utf-8") as log:
        for words in (["update"], ["install", "-y", "--no-install-recommends", *missing]):
            subprocess.run(["apt-get", *words], stdout=log, stderr=subprocess.STDOUT, check=True)


def sum_of(paths):
    """A sum of the files' contents."""
    digest = hashlib.sha256()
    for path in sorted(paths):
        with open(path, "rb") as file:
            digest.update(path.encode() + b"\0" + file.read())
    return digest.hexdigest()


def is_made(archive, stamp):
    """Whether an archive was made of what this stamp says."""
    try:
        with open(archive + ".stamp", encoding="utf-8") as file:
            return file.read() == stamp and os.path.isfile(archive)
    except OSError:
        return False


def note(archive, stamp):
    """Says what an archive was made of."""
    with open(archive + ".stamp", "w", encoding="utf-8") as file:
        file.write(stamp)


def build_shims():
    """Compiles the C functions before Oniguruma, PCRE2 and RE2."""
    for source in glob.glob(f"{HERE}/shims/*.c*"):
        name, kind = os.path.splitext(os.path.basename(source))
        compiler = "g++" if kind == ".cc" else "gcc"
        subprocess.run([compiler, "-O2", "-Wall", "-c", "-o", f"{NATIVE}/{name}.o", source], check=True)
        subprocess.run(["ar", "rcs", f"{NATIVE}/libshim_{name}.a", f"{NATIVE}/{name}.o"], check=True)


def build_kit():
    """Proves and builds the toolchain's crate `regex` behind its C function. Returns whether it is there."""
    archive = f"{NATIVE}/libkit_regex_c.a"
    stamp = sum_of(glob.glob(f"{HERE}/kit/*")) + output("rt", "version")
    if is_made(archive, stamp):
        return True
    say("building the toolchain's regex (about two minutes of processor time)")
    with tempfile.TemporaryDirectory(prefix="bench-") as room, open(f"{OUT}/kit.log", "w", encoding="utf-8") as log:
        crate = f"{room}/crates/kit_regex_c"
        for source, place in (("lib.rt.txt", "src/lib.rt"), ("Invariants.antt.txt", "proofs/captures_all/Invariants.antt")):
            os.makedirs(os.path.dirname(f"{crate}/{place}"), exist_ok=True)
            shutil.copy(f"{HERE}/kit/{source}", f"{crate}/{place}")
        os.makedirs(f"{crate}/specs")
        open(f"{crate}/specs/Lib.antt", "w", encoding="utf-8").close()
        with open(f"{room}/crates.txt", "w", encoding="utf-8") as lines:
            lines.write("kit_regex_c staticlib: regex\n")
        ran = subprocess.run(["rt", "lib"], cwd=crate, stdin=subprocess.DEVNULL, stdout=log, stderr=subprocess.STDOUT)
        if ran.returncode:
            say("the toolchain's regex is left out: see bench/out/kit.log")
            return False
        shutil.copy(f"{crate}/out/libkit_regex_c.a", archive)
    note(archive, stamp)
    return True


def sources_of_library():
    """The files that the library is built of."""
    crates = [f"{library.ROOT}/crates.txt", f"{HERE}/library/lib.rt.txt"]
    for line in open(f"{library.ROOT}/crates.txt", encoding="utf-8"):
        name = line.split(":")[0].split()[0]
        for part in ("src", "specs", "proofs"):
            crates += [it for it in glob.glob(f"{library.ROOT}/crates/{name}/{part}/**", recursive=True) if os.path.isfile(it)]
    return crates


def build_port(is_proved):
    """Builds this library. Returns whether it is there."""
    archive = f"{NATIVE}/libfancy_regex_c.a"
    stamp = f"{'proved' if is_proved else 'unproved'} {sum_of(sources_of_library())}"
    if is_made(archive, stamp):
        return True
    if is_proved:
        say("building this library over the proofs that this machine keeps; where it has none, all is proved (see bench/README.md)")
    else:
        say("building this library without proof")
    log = f"{OUT}/port.log"
    if not (library.proved if is_proved else library.unproved)(archive, log):
        say("this library is left out: see bench/out/port.log")
        return False
    note(archive, stamp)
    return True


def build_drivers(features, native=NATIVE, target=f"{OUT}/target", only=()):
    """Compiles the drivers, or some, over the sources of crates that Debian's packages have."""
    found = re.search(r"^(/.*/cargo/registry)/", output("dpkg", "-L", "librust-fancy-regex-dev"), re.M)
    os.makedirs(f"{OUT}/cargo", exist_ok=True)
    with open(f"{OUT}/cargo/config.toml", "w", encoding="utf-8") as file:
        file.write(f'[source.crates-io]\nreplace-with = "debian"\n[source.debian]\ndirectory = "{found[1]}"\n[net]\noffline = true\n')
    shutil.rmtree(f"{OUT}/driver", ignore_errors=True)
    shutil.copytree(f"{HERE}/driver", f"{OUT}/driver")
    environment = {**os.environ, "CARGO_HOME": f"{OUT}/cargo", "CARGO_TARGET_DIR": target, "BENCH_NATIVE": native,
                   "BENCH_STAMP": sum_of(glob.glob(f"{native}/*.a"))}
    words = ["cargo", "build", "--release", "--quiet", "--features", ",".join(features)]
    for name in only:
        words += ["--bin", name]
    subprocess.run(words, cwd=f"{OUT}/driver", env=environment, check=True)


def copy_allocator(folder):
    """Copies the library in which Rattle's allocator is."""
    kit = os.path.dirname(os.path.dirname(library.without_proof.rt_path()))
    shutil.copy(f"{kit}/c/liblibc_c.a", folder)


def build(wanted, is_proved=True):
    """Builds what the wanted peers need, and returns those of them that are there."""
    os.makedirs(NATIVE, exist_ok=True)
    install()
    asked = {PEERS[it][0] for it in wanted}
    if asked & {"port", "kit"}:
        copy_allocator(NATIVE)
    builds = [it for it in (("kit", build_kit), ("port", lambda: build_port(is_proved))) if it[0] in asked]
    with ThreadPoolExecutor(2) as pool:
        made = {name: pool.submit(work) for name, work in builds}
        build_shims()
    features = [name for name, work in made.items() if work.result()]
    build_drivers(features)
    lacking = set(made) - set(features)
    return [it for it in wanted if PEERS[it][0] not in lacking]


def fields(work, folder=TEXTS):
    """A workload as a driver reads it."""
    patterns = work["kinds"] if "kinds" in work else [work["pattern"]]
    words = (work["operation"], f"{folder}/{work['haystack']}", work.get("replacement", ""), *patterns)
    return "".join(it + "\0" for it in words).encode()


def command(peer, *words):
    """The command that runs a peer's driver, and its environment."""
    program, environment, _, _ = PEERS[peer]
    driver = [sys.executable, f"{HERE}/python_driver.py"] if program == "python" else [f"{BIN}/{program}"]
    return [*driver, *words], {**os.environ, **environment}


def measure(peer, work, seconds=5):
    """Measures a workload with a peer once, in a process of its own that may have so many seconds of a processor."""
    if peer == "seek" and work["operation"] in NOT_SEEKING:
        return {"status": "left out"}
    words, environment = command(peer)
    ran = subprocess.run(words, input=fields(work), capture_output=True, env=environment,
                         preexec_fn=lambda: resource.setrlimit(resource.RLIMIT_CPU, (seconds, seconds + 1)))
    if ran.returncode in (-signal.SIGXCPU, -signal.SIGKILL):
        return {"status": f"over {seconds} s"}
    try:
        return json.loads(ran.stdout)
    except ValueError:
        return {"status": f"crashed: {ran.stderr.decode(errors='replace').strip()[:200]}"}


def least(one, other):
    """Two measurements of the same, as one."""
    if one is None or one["status"] != "ok" or other["status"] != "ok":
        return other if one is None or other["status"] != "ok" else one
    together = {key: min(one[key], other[key]) for key in ("ns", "compile_us")}
    return {**other, **together, "kib": max(one["kib"], other["kib"])}


def measure_all(work, peers, rounds):
    """Measures a workload with the peers in turn, so many times, and gives the least of each."""
    found = {}
    for _ in range(rounds):
        for peer in peers:
            earlier = found.get(peer)
            if earlier is None or earlier["status"] == "ok":
                found[peer] = least(earlier, measure(peer, work))
    return found


def make_texts(works):
    """Makes the haystacks of the workloads."""
    started = time.monotonic()
    texts.make(TEXTS, sorted({it["haystack"] for it in works}))
    say(f"haystacks: {time.monotonic() - started:.0f} s")

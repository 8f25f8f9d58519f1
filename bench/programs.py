"""The programs that are compared: how they are built, and run on a stream of orders."""

import os
import pathlib
import subprocess
import tempfile

ROOT = pathlib.Path(__file__).resolve().parent.parent
BUILT = ROOT / "target" / "bench"
PLAIN, TESTS = BUILT / "plain", BUILT / "plain_tests"
PROGRAMS = {
    "cages": [ROOT / "crates" / "cages" / "out" / "cages"],
    "every cage": [PLAIN],
    "lighter alone": [PLAIN, "lighter"],
}


def compile_plain(file, *flags):
    source = ROOT / "bench" / "plain" / "main.rs"
    subprocess.run(["rustc", "-O", "--edition", "2024", *flags, source, "-o", file], check=True)


def build_plain():
    """Builds the plain program, in one codegen unit as rt builds `cages`, and runs its tests."""
    BUILT.mkdir(parents=True, exist_ok=True)
    compile_plain(PLAIN, "-Ccodegen-units=1")
    compile_plain(TESTS, "--test")
    subprocess.run([TESTS, "--quiet"], check=True, stdout=subprocess.DEVNULL)


def build_proved(crate):
    """Proves and builds a program, or takes it as it was built; gives its file."""
    folder = ROOT / "crates" / crate
    log = BUILT / f"{crate}.log"
    with open(folder / "stdin", "rb") as stdin, open(log, "wb") as said:
        ran = subprocess.run(["rt", "run"], cwd=folder, stdin=stdin, stdout=said, stderr=said)
    if ran.returncode:
        raise SystemExit(f"bench: {crate} was not built, see {log}")
    return folder / "out" / crate


def build():
    build_plain()
    build_proved("cages")


def run(name, stream):
    """The output of a program and its processor time in seconds."""
    with tempfile.TemporaryFile() as stdin, tempfile.TemporaryFile() as stdout:
        stdin.write(stream)
        stdin.seek(0)
        process = subprocess.Popen(PROGRAMS[name], stdin=stdin, stdout=stdout)
        _, status, used = os.wait4(process.pid, 0)
        process.returncode = os.waitstatus_to_exitcode(status)
        if process.returncode:
            raise SystemExit(f"bench: {name} ended with status {process.returncode}")
        stdout.seek(0)
        return stdout.read(), used.ru_utime + used.ru_stime


def check_outputs(stream, names=tuple(PROGRAMS)):
    """The output that all of these programs give; where they differ, the stream is stored and the run ends."""
    outputs = [run(name, stream)[0] for name in names]
    if any(output != outputs[0] for output in outputs):
        file = BUILT / "differs.bin"
        file.write_bytes(stream)
        raise SystemExit(f"bench: the outputs of {', '.join(names)} differ on {file}")
    return outputs[0]


def first_line(*command):
    return subprocess.run(command, capture_output=True, text=True, check=True).stdout.splitlines()[0]


def where():
    """The date, the machine and the tools."""
    model = next(line for line in open("/proc/cpuinfo") if line.startswith("model name")).split(":")[1].strip()
    load = ", ".join(f"{some:.1f}" for some in os.getloadavg())
    machine = f"{first_line('date', '+%F %H:%M')}, {os.cpu_count()} processors {model}, load {load}"
    return f"{machine}\n{first_line('rt', 'version')}, {first_line('rustc', '--version')}"

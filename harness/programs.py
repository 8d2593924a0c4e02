"""Our programs, built and run; and the player of harness/steps.c, which is in C."""
import functools
import os
import platform
import subprocess
import sys

TOP = os.path.dirname(os.path.dirname(os.path.abspath(__file__)))


def build(name, script, *archive):
    """Builds a program, or a library as an archive, where it is not there yet."""
    if subprocess.run(["harness/build", name, *archive]).returncode:
        sys.exit(f"{script}: {name} could not be built")


def output(name, data, *words):
    """What the program writes, as lines of text. A program that ends with another status than 0 has no output."""
    return lines_of(["harness/program", name, *words], data)


def lines_of(command, data):
    ran = subprocess.run(command, input=data, capture_output=True)
    if ran.returncode:
        return [f"{command[-1]} ended with status {ran.returncode}: {ran.stdout[-300:]} {ran.stderr[-300:]}"]
    return ran.stdout.decode("ascii").splitlines()


@functools.cache
def player():
    """The command that plays steps through the calls from C: harness/steps.c, compiled for x86-64 as our programs are, with the library of ./lib."""
    if subprocess.run([f"{TOP}/lib"], stdout=subprocess.DEVNULL).returncode:
        sys.exit("harness: no library for C")
    native = platform.machine() == "x86_64"
    compiler = ["gcc"] if native else ["x86_64-linux-gnu-gcc", "-static"]
    flags = ["-std=c11", "-O2", "-Wall", "-Wextra", "-Werror", "-pedantic", f"-I{TOP}/include"]
    made = f"{TOP}/target/steps"
    fresh = f"{made}.{os.getpid()}"  # another test may be running it
    subprocess.run([*compiler, *flags, "-o", fresh, f"{TOP}/harness/steps.c", f"{TOP}/target/libsdti.a"], check=True)
    os.replace(fresh, made)
    kit = subprocess.run([f"{TOP}/harness/program", "--where"], capture_output=True, text=True, check=True).stdout.split()
    return [*([] if native else kit[:1]), made]


def rows_of(steps):
    """The rows that the player writes of steps."""
    return lines_of(player(), steps.encode("ascii"))

"""Builds programs for 32 bits with the machine's compilers, and runs them.

Where the machine has no C library of 32 bits, a program is linked with the few lines of RUNTIME alone, which call the system.
"""
import os
import subprocess

RUNTIME = r"""
__asm__(".globl _start\n_start:\n xor %ebp, %ebp\n and $-16, %esp\n call begin\n");
int main(void);
static int call(int number, int a, int b, int c)
{
    int result;
    __asm__ volatile("int $0x80" : "=a"(result) : "a"(number), "b"(a), "c"(b), "d"(c) : "memory");
    return result;
}
static unsigned char held[65536];
static int count;
static void flush(void)
{
    int done = 0;
    while (done < count)
        done += call(4, 1, (int) (held + done), count - done);
    count = 0;
}
void exit(int status) { flush(); for (;;) call(1, status, 0, 0); }
int putchar(int c)
{
    if (count == sizeof held)
        flush();
    held[count++] = c;
    return (unsigned char) c;
}
int getchar(void)
{
    static unsigned char taken[65536];
    static int at, end;
    if (at == end) {
        at = 0;
        end = call(3, 0, (int) taken, sizeof taken);
        if (end <= 0)
            return end = 0, -1;
    }
    return taken[at++];
}
void *memset(void *to, int c, unsigned n) { char *p = to; while (n--) *p++ = c; return to; }
void *memcpy(void *to, const void *from, unsigned n) { char *p = to; const char *q = from; while (n--) *p++ = *q++; return to; }
void begin(void) { exit(main()); }
"""

ALWAYS = ["-m32", "-fwrapv", "-fno-strict-aliasing", "-fno-builtin", "-w"]
ALONE = ["-fno-stack-protector", "-fno-pie", "-no-pie", "-nostdlib", "-static"]


def has_library(folder):
    """Whether a program of 32 bits is linked with the machine's own C library."""
    source = os.path.join(folder, "probe.c")
    with open(source, "w", encoding="ascii") as file:
        file.write("int main(void) { return 0; }\n")
    words = ["gcc", "-m32", source, "-o", os.path.join(folder, "probe")]
    return subprocess.run(words, capture_output=True, check=False).returncode == 0


class Native:
    """The machine's compilers, with a folder for what they write."""

    def __init__(self, folder):
        self.folder = folder
        self.more = []
        if not has_library(folder):
            source = os.path.join(folder, "runtime.c")
            with open(source, "w", encoding="ascii") as file:
                file.write(RUNTIME)
            runtime = os.path.join(folder, "runtime.o")
            subprocess.run(["gcc", *ALWAYS, *ALONE, "-ffreestanding", "-O1", "-c", source, "-o", runtime], check=True)
            self.more = [*ALONE, runtime]

    def build(self, source, compiler, flags):
        """The program that a source is compiled to, or what the compiler says."""
        program = os.path.join(self.folder, "program")
        words = [compiler, *ALWAYS, *flags, source, *self.more, "-o", program]
        ran = subprocess.run(words, capture_output=True, text=True, errors="replace", check=False)
        return (program, "") if ran.returncode == 0 else (None, ran.stderr)


def run(words, given, seconds=60, folder=None):
    """Status, output and the last line on standard error of a program that is given this input."""
    try:
        ran = subprocess.run(words, input=given, capture_output=True, timeout=seconds, cwd=folder, check=False)
    except subprocess.TimeoutExpired:
        return None, b"", "no end"
    lines = ran.stderr.decode("utf-8", "replace").strip().splitlines()
    return ran.returncode, ran.stdout, "".join(lines[-1:])


def contents(path):
    """The bytes of a file, none where it is not there."""
    if not os.path.exists(path):
        return b""
    with open(path, "rb") as file:
        return file.read()

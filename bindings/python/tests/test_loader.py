"""Which of the two shared objects is loaded: the loader's choice, by the processor, as for a C program."""
import os
import subprocess
import sys
import unittest

import jihluka

FOLDER = os.path.dirname(os.path.abspath(jihluka.__file__))
SECOND = "glibc-hwcaps/x86-64-v3/libjihluka.so.0"
# Prints the objects that the package has loaded, and an answer.
PROGRAM = """
import jihluka
with open("/proc/self/maps") as it:
    print(*sorted({line.split()[-1] for line in it if "libjihluka.so" in line}))
print(jihluka.get('{"a": [1, 22]}', ["a", 1]))
"""


def printed(**variables):
    environment = {**os.environ, **variables}
    run = subprocess.run([sys.executable, "-B", "-c", PROGRAM], env=environment, stdout=subprocess.PIPE, check=True)
    return run.stdout.decode().split("\n")[:2]


def has_avx2():
    with open("/proc/cpuinfo") as it:
        return any(line.startswith("flags") and " avx2 " in line + " " for line in it)


@unittest.skipUnless(os.path.exists(os.path.join(FOLDER, SECOND)), "the package doesn't carry two objects")
class Loader(unittest.TestCase):
    def test_without_avx2(self):
        objects, answer = printed(GLIBC_TUNABLES="glibc.cpu.hwcaps=-AVX2")
        self.assertEqual(objects, os.path.join(FOLDER, "libjihluka.so.0"))
        self.assertEqual(answer, "22")

    @unittest.skipUnless(has_avx2(), "this processor has no AVX2")
    def test_with_avx2(self):
        objects, answer = printed()
        self.assertEqual(objects, os.path.join(FOLDER, SECOND))
        self.assertEqual(answer, "22")


if __name__ == "__main__":
    unittest.main()

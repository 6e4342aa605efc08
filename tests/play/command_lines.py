"""Command lines that no text of a case can say."""
import os
import resource
import subprocess
import tempfile
import unittest


class Refused(unittest.TestCase):
    """A command line with a word that is no UTF-8: the word is named by its place, and nothing is done."""

    def test_word_that_is_no_text(self):
        for words, place in (([b"\xff"], 1), ([b"page", b"--width", b"1728\xc3"], 3), ([b"trace", "é".encode(), b"\xed\xa0\x80"], 3)):
            with self.subTest(words=words):
                ran = subprocess.run([os.environ["FAXGATE"].encode(), *words], input=b"", capture_output=True, timeout=60)
                self.assertEqual((ran.returncode, ran.stdout), (2, b""))
                self.assertEqual(ran.stderr, f"faxgate: word {place} is no UTF-8\n".encode())


class Descriptors(unittest.TestCase):
    """A server that wants more descriptors than its process can have is not begun (setrlimit(2))."""

    WANTED, MOST = 5 + 2 * 40, 84
    LINE = "[[lines]]\nname = 'a{0}'\ncalling.local = '192.0.2.{0}:5000'\ncalled.local = '192.0.2.{0}:5002'\n"

    def run_with(self, most, *words):
        def limit():
            _, hard = resource.getrlimit(resource.RLIMIT_NOFILE)
            resource.setrlimit(resource.RLIMIT_NOFILE, (most, hard))

        with tempfile.TemporaryDirectory() as folder:
            with open(os.path.join(folder, "lines.toml"), "w", encoding="utf-8") as file:
                file.write("".join(self.LINE.format(i) for i in range(1, 41)))
            return subprocess.run([os.environ["FAXGATE"], *words, "--config", "lines.toml"], cwd=folder, input=b"", capture_output=True,
                                  timeout=60, preexec_fn=limit)

    def test_too_few_are_told(self):
        told = f"faxgate: lines.toml: {self.WANTED} descriptors are wanted, and {self.MOST} can be had (ulimit -n)\n"
        for command, printed in (("check", f"lines 40\ndescriptors {self.WANTED}\n"), ("serve", "")):
            with self.subTest(command=command):
                ran = self.run_with(self.MOST, command)
                self.assertEqual((ran.returncode, ran.stdout.decode(), ran.stderr.decode()), (4, printed, told))

    def test_as_many_are_enough(self):
        ran = self.run_with(self.WANTED, "check")
        self.assertEqual((ran.returncode, ran.stderr), (0, b""))


if __name__ == "__main__":
    unittest.main()

"""A program asks three questions over a pipe, as in a dialogue: each is out before its answer is asked for."""

import os
import select
import subprocess
import tempfile
import unittest

TOP = os.path.dirname(os.path.dirname(os.path.dirname(os.path.abspath(__file__))))
PROGRAM = os.environ["PCOM"]
SECONDS = 60

SOURCE = b"""program dialogue(input, output);
var
  day, month: 0..99;
  letter: char;
begin
  write('day? ');
  readln(day);
  write('month? ');
  readln(month);
  write('letter? ');
  readln(letter);
  writeln(letter, day: 3, month: 3)
end.
"""
QUESTIONS = ((b"day? ", b"24\n"), (b"month? ", b" 12 or so\n"), (b"letter? ", b"xyz\n"))
LAST = b"x 24 12\n"


def came(stream, count):
    """So many bytes of a stream, or fewer where no more come in time."""
    text = b""
    while len(text) < count and select.select([stream], [], [], SECONDS)[0]:
        piece = os.read(stream.fileno(), count - len(text))
        if not piece:
            break
        text += piece
    return text


@unittest.skipUnless(os.access(PROGRAM, os.X_OK), "pcom isn't built: bin/pcom builds it")
class Dialogue(unittest.TestCase):
    def start(self, folder):
        path = os.path.join(folder, "dialogue.pas")
        with open(path, "wb") as file:
            file.write(SOURCE)
        pipes = {"stdin": subprocess.PIPE, "stdout": subprocess.PIPE, "stderr": subprocess.PIPE}
        return subprocess.Popen([PROGRAM, "--go", path], bufsize=0, **pipes)

    def test_each_question_is_out_before_its_answer_is_asked_for(self):
        with tempfile.TemporaryDirectory() as folder, self.start(folder) as ran:
            for question, answer in QUESTIONS:
                self.assertEqual(came(ran.stdout, len(question)), question)
                ran.stdin.write(answer)
            self.assertEqual(came(ran.stdout, len(LAST)), LAST)
            output, messages = ran.communicate(timeout=SECONDS)
            self.assertEqual((output, messages, ran.returncode), (b"", b"", 0))

    def test_an_input_that_is_closed_ends_it_at_the_question(self):
        with tempfile.TemporaryDirectory() as folder, self.start(folder) as ran:
            self.assertEqual(came(ran.stdout, 5), b"day? ")
            output, messages = ran.communicate(b"1\n", timeout=SECONDS)
            self.assertEqual((output, messages, ran.returncode), (b"month? ", b"9:10: input: end of input\n", 5))


if __name__ == "__main__":
    unittest.main()

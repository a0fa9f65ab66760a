"""The files that the built compiler writes: each has all of its text, or is as it was before."""

import os
import resource
import signal
import socket
import subprocess
import tempfile
import unittest

TOP = os.path.dirname(os.path.dirname(os.path.dirname(os.path.abspath(__file__))))
PROGRAM = os.environ["PCOM"]
SOURCE = "program p(output); begin writeln(1: 1) end.\n"
OPEN = "program q(output); var i: integer; begin write(i) end.\n"
TOLD = "1:48: possible error: undefined variable\n1:48: error: undefined variable\n"
CERT = "pcert 3\n"
SECONDS = 60


def take_few_bytes():
    """No file takes more than four bytes; the write fails then, and no signal comes."""
    signal.signal(signal.SIGXFSZ, signal.SIG_IGN)
    resource.setrlimit(resource.RLIMIT_FSIZE, (4, 4))


class Files(unittest.TestCase):
    def setUp(self):
        folder = tempfile.TemporaryDirectory()
        self.addCleanup(folder.cleanup)
        self.folder = folder.name
        self.put("p.pas", SOURCE)

    def put(self, name, text):
        with open(os.path.join(self.folder, name), "w", encoding="ascii") as file:
            file.write(text)

    def text_of(self, name):
        with open(os.path.join(self.folder, name), encoding="ascii") as file:
            return file.read()

    def compiled(self, *words, before=None):
        """What is told, and the status."""
        words = [PROGRAM, *words]
        ran = subprocess.run(words, cwd=self.folder, capture_output=True, text=True, timeout=SECONDS, preexec_fn=before)
        self.assertEqual(ran.stdout, "")
        return ran.stderr, ran.returncode

    def ran(self, *words, stdout=subprocess.DEVNULL, stderr=subprocess.STDOUT):
        """The status of a run whose streams go where they are said to go."""
        words = [PROGRAM, *words]
        return subprocess.run(words, cwd=self.folder, stdout=stdout, stderr=stderr, timeout=SECONDS).returncode

    def opened(self, name, mode):
        """A file for a stream to go to, as the shell's `>` opens it with `w`, and `>>` with `a`."""
        file = open(os.path.join(self.folder, name), mode, encoding="ascii")
        self.addCleanup(file.close)
        return file

    def names(self):
        return sorted(os.listdir(self.folder))

    def test_a_new_file(self):
        self.assertEqual(self.compiled("--write-cert", "p.cert", "p.pas", "p.code"), ("", 0))
        self.assertEqual(self.text_of("p.cert"), CERT)
        self.assertTrue(self.text_of("p.code").startswith("pcode 1\n"))
        self.assertTrue(self.text_of("p.code").endswith("\nend\n"))
        self.assertEqual(self.names(), ["p.cert", "p.code", "p.pas"])

    def test_a_file_in_the_place_of_another_keeps_its_rights(self):
        self.put("p.code", "an old text\n" * 1000)
        os.chmod(os.path.join(self.folder, "p.code"), 0o640)
        self.assertEqual(self.compiled("p.pas", "p.code"), ("", 0))
        self.assertTrue(self.text_of("p.code").startswith("pcode 1\n"))
        self.assertNotIn("old", self.text_of("p.code"))
        self.assertEqual(os.stat(os.path.join(self.folder, "p.code")).st_mode & 0o777, 0o640)
        self.assertEqual(self.names(), ["p.code", "p.pas"])

    def test_a_file_that_does_not_take_all_is_as_it_was(self):
        self.put("p.code", "old\n")
        told = self.compiled("p.pas", "p.code", before=take_few_bytes)
        self.assertEqual(told, ("cannot write p.code\n", 3))
        self.assertEqual(self.text_of("p.code"), "old\n")
        self.assertEqual(self.names(), ["p.code", "p.pas"])

    def test_a_new_file_that_does_not_take_all_is_not_there(self):
        told = self.compiled("p.pas", "p.code", before=take_few_bytes)
        self.assertEqual(told, ("cannot write p.code\n", 3))
        self.assertEqual(self.names(), ["p.pas"])

    def test_a_link_stays_a_link(self):
        self.put("first.code", "old\n")
        os.symlink("first.code", os.path.join(self.folder, "p.code"))
        self.assertEqual(self.compiled("p.pas", "p.code"), ("", 0))
        self.assertTrue(os.path.islink(os.path.join(self.folder, "p.code")))
        self.assertTrue(self.text_of("first.code").startswith("pcode 1\n"))
        self.assertEqual(self.names(), ["first.code", "p.code", "p.pas"])

    def test_no_folder(self):
        self.assertEqual(self.compiled("p.pas", "none/p.code"), ("cannot write none/p.code\n", 3))

    def test_a_folder(self):
        os.mkdir(os.path.join(self.folder, "code"))
        self.assertEqual(self.compiled("p.pas", "code"), ("cannot write code\n", 3))

    def test_a_pipe_gets_the_text_as_it_is(self):
        path = os.path.join(self.folder, "pipe")
        os.mkfifo(path)
        reading = subprocess.Popen(["cat", path], stdout=subprocess.PIPE, text=True)
        self.assertEqual(self.compiled("p.pas", "pipe"), ("", 0))
        text, _ = reading.communicate(timeout=SECONDS)
        self.assertTrue(text.startswith("pcode 1\n") and text.endswith("\nend\n"))

    def test_the_file_of_standard_output_gets_the_text_before_the_output(self):
        os.symlink("/dev/stdout", os.path.join(self.folder, "link"))
        os.symlink("x", os.path.join(self.folder, "y"))
        for path in ["/dev/stdout", "link", "x", "y"]:
            with self.subTest(path=path):
                status = self.ran("--write-cert", path, "--go", "p.pas", stdout=self.opened("x", "w"))
                self.assertEqual(status, 0)
                self.assertEqual(self.text_of("x"), CERT + "1\n")
        self.assertEqual(self.names(), ["link", "p.pas", "x", "y"])

    def test_a_file_that_standard_output_is_added_to_keeps_what_it_had(self):
        self.put("x", "old\n")
        self.assertEqual(self.ran("--write-cert", "/dev/stdout", "--go", "p.pas", stdout=self.opened("x", "a")), 0)
        self.assertEqual(self.ran("--write-cert", "x", "--go", "p.pas", stdout=self.opened("x", "a")), 0)
        self.assertEqual(self.text_of("x"), "old\n" + 2 * (CERT + "1\n"))

    def test_the_file_of_standard_output_gets_both_texts(self):
        self.assertEqual(self.ran("--write-cert", "x", "--go", "p.pas", "/dev/stdout", stdout=self.opened("x", "w")), 0)
        self.assertTrue(self.text_of("x").startswith(CERT + "pcode 1\n"))
        self.assertTrue(self.text_of("x").endswith("\nend\n1\n"))

    def test_the_file_of_standard_error_gets_the_text_before_the_report(self):
        self.put("q.pas", OPEN)
        for path in ["/dev/stderr", "x"]:
            for mode, old in [("w", ""), ("a", "old\n")]:
                with self.subTest(path=path, mode=mode):
                    self.put("x", "old\n")
                    status = self.ran("--write-cert", path, "--go", "q.pas", stderr=self.opened("x", mode))
                    self.assertEqual(status, 4)
                    self.assertEqual(self.text_of("x"), old + CERT + TOLD)
        self.assertEqual(self.names(), ["p.pas", "q.pas", "x"])

    def test_another_name_of_the_file_of_standard_output(self):
        file = self.opened("x", "w")
        os.link(os.path.join(self.folder, "x"), os.path.join(self.folder, "y"))
        self.assertEqual(self.ran("--write-cert", "y", "--go", "p.pas", stdout=file), 0)
        self.assertEqual([self.text_of("x"), self.text_of("y")], 2 * [CERT + "1\n"])

    def test_a_socket_gets_the_text_as_it_is(self):
        ours, theirs = socket.socketpair()
        with ours, theirs:
            self.assertEqual(self.ran("--write-cert", "/dev/stdout", "--go", "p.pas", stdout=theirs), 0)
            theirs.shutdown(socket.SHUT_WR)
            with ours.makefile("r", encoding="ascii") as file:
                self.assertEqual(file.read(), CERT + "1\n")

    def test_names_as_long_as_the_system_takes(self):
        code = "c" * 255
        self.assertEqual(self.compiled("p.pas", code), ("", 0))
        self.put(code, "old\n")
        self.assertEqual(self.compiled("p.pas", code), ("", 0))
        self.assertTrue(self.text_of(code).startswith("pcode 1\n"))
        self.assertEqual(self.compiled("p.pas", "c" * 256), (f"cannot write {'c' * 256}\n", 3))
        self.assertEqual(self.names(), [code, "p.pas"])

    def test_runs_at_once(self):
        self.put(".pcom-0.new", "of another run\n")
        words = [PROGRAM, "p.pas"]
        names = [f"{number}.code" for number in range(4)]
        runs = [subprocess.Popen([*words, name], cwd=self.folder) for name in 2 * names]
        self.assertEqual([run.wait(timeout=SECONDS) for run in runs], len(runs) * [0])
        for name in names:
            self.assertTrue(self.text_of(name).startswith("pcode 1\n"))
            self.assertTrue(self.text_of(name).endswith("\nend\n"))
        self.assertEqual(self.text_of(".pcom-0.new"), "of another run\n")
        self.assertEqual(self.names(), [".pcom-0.new", *names, "p.pas"])

    def test_a_link_to_another_folder(self):
        os.mkdir(os.path.join(self.folder, "away"))
        os.mkdir(os.path.join(self.folder, "links"))
        self.put("away/first.code", "old\n")
        os.symlink("../away/first.code", os.path.join(self.folder, "links", "p.code"))
        os.symlink("../away/new.code", os.path.join(self.folder, "links", "q.code"))
        for name in ["links/p.code", "links/q.code"]:
            self.assertEqual(self.compiled("p.pas", name), ("", 0))
            self.assertTrue(os.path.islink(os.path.join(self.folder, name)))
            self.assertTrue(self.text_of(name).startswith("pcode 1\n"))
        self.assertEqual(sorted(os.listdir(os.path.join(self.folder, "away"))), ["first.code", "new.code"])
        self.assertEqual(sorted(os.listdir(os.path.join(self.folder, "links"))), ["p.code", "q.code"])

    def test_a_descriptor_of_a_file_that_is_gone(self):
        file = self.opened("gone", "w")
        os.remove(os.path.join(self.folder, "gone"))
        path = f"/proc/{os.getpid()}/fd/{file.fileno()}"
        self.assertEqual(self.compiled("p.pas", path), (f"cannot write {path}\n", 3))
        self.assertEqual(self.names(), ["p.pas"])

    def test_a_folder_whose_name_is_not_utf_8(self):
        self.folder = os.path.join(os.fsencode(self.folder), b"\xff")
        os.mkdir(self.folder)
        for _ in range(2):
            told = subprocess.run([PROGRAM, "../p.pas", "p.code"], cwd=self.folder, capture_output=True)
            self.assertEqual((told.stderr, told.returncode), (b"", 0))
        self.assertEqual(os.listdir(self.folder), [b"p.code"])

    @unittest.skipUnless(os.geteuid() == 0, "only root gives files away")
    def test_a_file_in_the_place_of_another_keeps_its_owner(self):
        self.put("p.code", "old\n")
        path = os.path.join(self.folder, "p.code")
        os.chown(path, 1234, 2345)
        self.assertEqual(self.compiled("p.pas", "p.code"), ("", 0))
        self.assertEqual((os.stat(path).st_uid, os.stat(path).st_gid), (1234, 2345))


if __name__ == "__main__":
    unittest.main()

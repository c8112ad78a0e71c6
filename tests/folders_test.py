#!/usr/bin/env python3
"""Tests that packaging/dist.sh and tests/monitor.sh change only files and folders that they have created.

    python3 tests/folders_test.py

packaging/dist.sh packs the program and its pages into an archive, and tests/monitor.sh installs and runs a monitor of
Ceph. The test runs both scripts in temporary folders that already have files. It also tests that dist.sh works with
the umask 077 and with an exported CDPATH. The test needs neither root nor the program, and starts no monitor. It
prints the results as `unittest` does. The status is 1 if a test fails.
"""
import os
import pathlib
import subprocess
import tarfile
import tempfile
import unittest

TOP = pathlib.Path(__file__).resolve().parent.parent
ARCHIVE = "crushedit-0.0.9-linux-x86_64"


class Folders(unittest.TestCase):
    def setUp(self):
        temporary = tempfile.TemporaryDirectory()
        self.addCleanup(temporary.cleanup)
        self.here = pathlib.Path(temporary.name)

    def run_words(self, *words, **environment):
        return subprocess.run(list(map(str, words)), cwd=str(TOP), stdin=subprocess.DEVNULL, stdout=subprocess.PIPE,
                              stderr=subprocess.STDOUT, env={**os.environ, **environment})

    def pack(self, shell="", **environment):
        """Packs a stand-in for the program, and returns the mode of each file and folder of the archive.

        The stand-in prints the version 0.0.9."""
        program = self.here / "program"
        program.write_text("#!/bin/sh\necho 'crushedit 0.0.9 (a trial)'\n")
        program.chmod(0o755)
        ended = self.run_words("sh", "-c", shell + 'packaging/dist.sh "$0" "$1"', program, self.here / "out", **environment)
        self.assertEqual(ended.returncode, 0, ended.stdout.decode())
        with tarfile.open(str(self.here / "out" / (ARCHIVE + ".tar.gz"))) as archive:
            return {member.name: member.mode for member in archive}

    def test_folders_of_others_stay(self):
        for name in ("deb", ARCHIVE):
            (self.here / "out" / name).mkdir(parents=True)
            (self.here / "out" / name / "mine").write_text("mine")
        self.pack()
        self.assertEqual(len(list(self.here.glob("out/*/mine"))), 2)

    def test_nothing_but_the_packages_is_left(self):
        self.pack()
        self.assertFalse([path for path in (self.here / "out").iterdir() if path.is_dir()])

    def test_any_umask(self):
        for _ in range(2):
            modes = self.pack("umask 077; ")
            self.assertEqual(modes[ARCHIVE + "/bin/crushedit-recipe"], 0o755)
            self.assertEqual(modes[ARCHIVE + "/share/doc/crushedit/README.md"], 0o644)

    def test_exported_cdpath(self):
        self.pack(CDPATH=".:/")

    def test_monitor_only_where_it_was_installed(self):
        (self.here / "mon").mkdir()
        (self.here / "mon" / "mine").write_text("mine")
        (self.here / "etc" / "ceph").mkdir(parents=True)
        (self.here / "etc" / "ceph" / "ceph.conf").write_text("mine")
        # If monitor.sh wrongly accepts the folder, these stand-ins make sure that it fetches and starts nothing.
        tools = self.here / "etc" / "tools"
        tools.mkdir()
        for name in ("debootstrap", "apt-get", "unshare", "chroot"):
            (tools / name).write_text("#!/bin/sh\nexit 1\n")
            (tools / name).chmod(0o755)
        for word in ("install", "start", "stop"):
            ended = self.run_words("tests/monitor.sh", word, self.here, PATH="{}:{}".format(tools, os.environ["PATH"]))
            self.assertNotEqual(ended.returncode, 0)
            self.assertIn(b"monitor.sh: ", ended.stdout)
        self.assertTrue((self.here / "mon" / "mine").exists())
        self.assertEqual((self.here / "etc" / "ceph" / "ceph.conf").read_text(), "mine")
        self.assertEqual(sorted(path.name for path in self.here.iterdir()), ["etc", "mon"])


if __name__ == "__main__":
    unittest.main()

"""Runs crushedit with `-o FILE`, and checks that FILE always has either its old bytes or all of its new bytes.

    python3 tests/outfile.py PROGRAM [SEED]

In some of the runs, something goes wrong. For example, the disk is full, the user may not write to the folder of FILE,
or the run is killed. In most trials, the test also checks that crushedit leaves no other file in this folder.

If root starts the test, then crushedit runs as a user without rights. The test itself runs in a mount namespace of its
own, in which it mounts a small disk, and creates two devices like /dev/null and /dev/full. If the user isn't root or
may not mount anything, the test leaves out the trials of these devices and of the small disk. The last line of the
test's output then says so. No trial gives crushedit a device of the machine as FILE.

Some runs are killed after random times. The same SEED gives the same random numbers, but the times also depend on the
speed of the machine. Without a SEED, the random numbers differ each time. The test prints a line for each comparison
that fails. The last line has the numbers of all comparisons and of the failed comparisons. If a comparison has failed,
the status is 1.
"""

import os
import pathlib
import random
import shutil
import signal
import stat
import subprocess
import sys
import tempfile
import time

sys.path.append(str(pathlib.Path(__file__).resolve().parent.parent / "bench"))
from limited import run_limited  # noqa: E402
from make_job import map_text  # noqa: E402

INSIDE = "--inside"
NOBODY = ["setpriv", "--reuid=65534", "--regid=65534", "--clear-groups"]
WRITE = "crushedit: write fault\n"
FULL, FORBIDDEN = "No space left on device (os error 28)", "Permission denied (os error 13)"
KILLED_RUNS = 60
OLD = b"the old bytes\n"


class Trials:
    """The trials, in a folder with the maps `small` and `large`, which the user who runs crushedit may read."""

    def __init__(self, program, folder, chance, mounts):
        self.is_root = os.geteuid() == 0
        self.mounts = mounts
        self.folder, self.chance = folder, chance
        self.program = folder / "crushedit"
        shutil.copy(program, self.program)
        self.program.chmod(0o755)
        folder.chmod(0o755)
        for name, devices in (("small", 3), ("large", 2000)):
            (folder / name).write_text(map_text(devices))
        self.new = {name: self.printed(name) for name in ("small", "large")}
        self.count, self.failed = 0, 0

    def words(self, *words):
        return [*(NOBODY if self.is_root else []), str(self.program), *map(str, words)]

    def printed(self, name):
        return subprocess.run(self.words(self.folder / name), capture_output=True, check=True).stdout

    def ended(self, *words):
        """Returns the status and the standard error of a run. The run must write nothing to standard output."""
        run = run_limited(self.words(*words), capture_output=True)
        self.expect(run.stdout, b"", f"the output of {words}")
        return run.returncode, run.stderr.decode()

    def expect(self, came, wanted, what):
        self.count += 1
        if came != wanted:
            self.failed += 1
            print(f"{what}: {came!r:.300} in place of {wanted!r:.300}")

    def room(self, name):
        """Creates a folder in which crushedit may write, and returns its path."""
        place = self.folder / name
        place.mkdir()
        self.give(place)
        return place

    def give(self, place):
        if self.is_root:
            os.chown(place, 65534, 65534, follow_symlinks=False)

    def file(self, place, mode=0o644):
        place.write_bytes(OLD)
        place.chmod(mode)
        self.give(place)
        return place

    def names(self, place, *wanted):
        self.expect(sorted(os.listdir(place)), sorted(wanted), f"the names in {place.name}")

    def replaced(self):
        place = self.room("replaced")
        file = self.file(place / "file", 0o640)
        self.expect(self.ended("-o", file, self.folder / "large"), (0, ""), "a file is replaced")
        self.expect(file.read_bytes(), self.new["large"], "its bytes")
        self.expect(stat.S_IMODE(file.stat().st_mode), 0o640, "its mode")
        self.expect(self.ended(f"--output={place / 'made'}", self.folder / "small"), (0, ""), "a file is made")
        self.expect((place / "made").read_bytes(), self.new["small"], "the bytes of a file that is made")
        self.names(place, "file", "made")

    def read_by_the_run(self):
        place = self.room("read")
        shutil.copy(self.folder / "small", place / "map")
        self.give(place / "map")
        self.expect(self.ended("-o", place / "map", place / "map"), (0, ""), "the map itself is replaced")
        self.expect((place / "map").read_bytes(), self.new["small"], "the bytes of the map")

    def ended_runs(self):
        place = self.room("ended")
        file = self.file(place / "file")
        (place / "flawed").write_text("hots a {\n")
        (place / "job").write_text(map_text(3) + "%operator a\nrm nope\n")
        for words, status in ((["flawed"], 1), (["missing"], 3), (["--strict", "job"], 5), (["--under=nope", "--tree", "job"], 1)):
            words = [word if word.startswith("--") else place / word for word in words]
            self.expect(self.ended("-o", file, *words)[0], status, f"the status of {words}")
            self.expect(file.read_bytes(), OLD, f"the file after {words}")
            self.expect(self.ended("-o", place / "made", *words)[0], status, f"the status of {words} for no file")
        self.names(place, "file", "flawed", "job")

    def without_leave(self):
        place = self.room("closed")
        file = self.file(place / "file")
        place.chmod(0o555)
        self.expect(self.ended("-o", file, self.folder / "small"), (3, WRITE), "a folder without leave")
        told = f"{WRITE}  {file}: {FORBIDDEN}\n"
        self.expect(self.ended("--explain", "-o", file, self.folder / "small"), (3, told), "its reason")
        self.expect(file.read_bytes(), OLD, "the file in a folder without leave")
        self.names(place, "file")
        place.chmod(0o755)
        self.expect(self.ended("-o", place, self.folder / "small")[0], 3, "the file is a folder")
        self.expect(self.ended("-o", place / "none" / "file", self.folder / "small")[0], 3, "there is no folder")
        self.names(place, "file")

    def links(self):
        place = self.room("links")
        (place / "deep").mkdir()
        self.give(place / "deep")
        target = self.file(place / "deep" / "file")
        (place / "link").symlink_to("deep/link")
        (place / "deep" / "link").symlink_to(target)
        (place / "dangling").symlink_to("deep/made")
        (place / "loop").symlink_to("loop")
        for name, where in (("link", target), ("dangling", place / "deep" / "made")):
            self.expect(self.ended("-o", place / name, self.folder / "small"), (0, ""), f"a {name}")
            self.expect((place / name).is_symlink(), True, f"the {name} is still a link")
            self.expect(where.read_bytes(), self.new["small"], f"the bytes to which the {name} leads")
        self.expect(self.ended("-o", place / "loop", self.folder / "small")[0], 3, "a link to itself")
        self.names(place, "deep", "link", "dangling", "loop")
        self.names(place / "deep", "file", "link", "made")

    def taken_names(self):
        place = self.room("taken")
        file = self.file(place / "file")
        taken = [self.file(place / f"file.crushedit-{number}") for number in range(100)]
        self.expect(self.ended("-o", file, self.folder / "small"), (3, WRITE), "all names are taken")
        self.expect(file.read_bytes(), OLD, "the file if all names are taken")
        taken.pop(57).unlink()
        self.expect(self.ended("-o", file, self.folder / "small"), (0, ""), "all names but one are taken")
        self.expect(file.read_bytes(), self.new["small"], "the file if one name is free")
        self.expect({place.read_bytes() for place in taken}, {OLD}, "the files whose names are taken")
        self.names(place, "file", *(place.name for place in taken))

    def pipe(self):
        place = self.room("pipe")
        os.mkfifo(place / "pipe")
        (place / "pipe").chmod(0o666)
        with open(place / "got", "wb") as got:
            reader = subprocess.Popen(["cat", place / "pipe"], stdout=got)
        self.expect(self.ended("-o", place / "pipe", self.folder / "large"), (0, ""), "a pipe")
        reader.wait(60)
        self.expect((place / "got").read_bytes(), self.new["large"], "the bytes of a pipe")
        self.expect((place / "pipe").is_fifo(), True, "the pipe is still one")
        self.names(place, "got", "pipe")

    def device(self):
        place = self.room("devices")
        subprocess.run(["mount", "-t", "tmpfs", "-o", "dev,mode=777", "none", place], check=True)
        for name, minor in (("null", 3), ("full", 7)):
            os.mknod(place / name, stat.S_IFCHR | 0o666, os.makedev(1, minor))
            (place / name).chmod(0o666)
        self.expect(self.ended("-o", place / "null", self.folder / "small"), (0, ""), "a device")
        self.expect(self.ended("-o", place / "full", self.folder / "small"), (3, WRITE), "a device that takes nothing")
        self.expect({(place / name).is_char_device() for name in ("null", "full")}, {True}, "the devices are still ones")
        self.names(place, "null", "full")

    def full_disk(self):
        place = self.room("disk")
        subprocess.run(["mount", "-t", "tmpfs", "-o", "size=64k,mode=777", "none", place], check=True)
        file = self.file(place / "file")
        self.expect(self.ended("-o", file, self.folder / "large"), (3, WRITE), "a full disk")
        told = f"{WRITE}  {file}: {FULL}\n"
        self.expect(self.ended("--explain", "-o", file, self.folder / "large"), (3, told), "its reason")
        self.expect(file.read_bytes(), OLD, "the file on a full disk")
        self.names(place, "file")
        self.expect(self.ended("-o", file, self.folder / "small"), (0, ""), "a disk with room for a small file")
        self.expect(file.read_bytes(), self.new["small"], "the small file")

    def killed(self):
        place = self.room("killed")
        file = self.file(place / "file")
        begun = time.monotonic()
        self.ended("-o", place / "timed", self.folder / "large")
        longest = time.monotonic() - begun
        for _ in range(KILLED_RUNS):
            run = subprocess.Popen(self.words("-o", file, self.folder / "large"))
            time.sleep(self.chance.uniform(0, longest * 1.2))
            run.send_signal(signal.SIGKILL)
            run.wait()
            self.expect(file.read_bytes() in (OLD, self.new["large"]), True, "a killed run leaves the old bytes or the new ones")
            self.file(file)

    def all(self):
        for trial in (self.replaced, self.read_by_the_run, self.ended_runs, self.without_leave, self.links, self.taken_names, self.pipe, self.killed):
            trial()
        if self.mounts:
            self.device()
            self.full_disk()


def can_mount():
    """Returns whether the user is root, and may mount a file system in a new mount namespace."""
    if os.geteuid() != 0:
        return False
    with tempfile.TemporaryDirectory() as folder:
        words = ["unshare", "-m", "--propagation", "private", "mount", "-t", "tmpfs", "none", folder]
        return subprocess.run(words, capture_output=True).returncode == 0


def main():
    words = sys.argv[1:]
    if INSIDE not in words and can_mount():
        os.execvp("unshare", ["unshare", "-m", "--propagation", "private", sys.executable, "-B", __file__, INSIDE, *words])
    mounts = INSIDE in words
    words = [word for word in words if word != INSIDE]
    chance = random.Random(int(words[1]) if len(words) > 1 else None)
    with tempfile.TemporaryDirectory() as folder:
        trials = Trials(words[0], pathlib.Path(folder), chance, mounts)
        trials.all()
        if mounts:
            for name in ("devices", "disk"):
                subprocess.run(["umount", pathlib.Path(folder, name)], check=False)
    left = "" if mounts else "; those of a device and of a full disk are left out, since they can't be mounted here"
    print(f"{trials.count} comparisons, {trials.failed} otherwise{left}")
    return 1 if trials.failed else 0


if __name__ == "__main__":
    sys.exit(main())

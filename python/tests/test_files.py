"""Files: saved and loaded again, in both layouts and formats; damaged ones; and what stands at a path after an error."""

import ctypes
import errno
import io
import os
import random
import resource
import signal
import stat
import subprocess
import sys
import tempfile
import threading
import time
import traceback
import unittest
from pathlib import Path
from unittest import mock

from roskvidh import Cedar, CedarError, files

NOBODY = 65534


def refused_calls():
    """What refuses calls on files, of the library of refuse.c, where it was loaded before all else."""
    return ctypes.PyDLL(None).refuse_calls if "refuse" in os.environ.get("LD_PRELOAD", "") else None


def start_child(work, as_nobody=False):
    """Makes a call in a forked process, as the user `nobody` if that is wanted and allowed."""
    child = os.fork()
    if child > 0:
        return child
    status = 1
    try:
        if as_nobody and os.geteuid() == 0:
            os.setgroups([])
            os.setgid(NOBODY)
            os.setuid(NOBODY)
        work()
        status = 0
    except BaseException:
        traceback.print_exc()
    finally:
        os._exit(status)


def is_met(child):
    """Waits until a process ends, and tells whether it did so without an error."""
    return os.waitpid(child, 0)[1] == 0


class Files(unittest.TestCase):
    def setUp(self):
        folder = tempfile.TemporaryDirectory()
        self.addCleanup(folder.cleanup)
        self.path = Path(folder.name) / "words.cedar"

    def test_saved_and_loaded(self):
        plain = {b"%d" % i: i for i in range(3000)}
        for reduced in (False, True):
            for full in (False, True):
                d = Cedar(plain, reduced=reduced)
                d.save(self.path, full=full)
                d.save(str(self.path), full=full)
                file = io.BytesIO()
                d.save(file, full=full)
                data = self.path.read_bytes()
                self.assertTrue(data == file.getvalue() == d.to_bytes(full=full))
                with open(self.path, "rb", buffering=0) as opened:
                    loaded = [Cedar.load(self.path), Cedar.load(str(self.path)), Cedar.load(opened), Cedar.load(data), Cedar.load(memoryview(data))]
                for other in loaded:
                    self.assertEqual((other, other.reduced, other.to_bytes(full=full)), (plain, reduced, data))
        self.assertEqual(os.listdir(self.path.parent), [self.path.name])

    def names(self):
        return sorted(os.listdir(self.path.parent))

    def test_modes_and_links(self):
        d = Cedar({b"a": 1})
        mask = os.umask(0o027)
        self.addCleanup(os.umask, mask)
        d.save(self.path)
        self.assertEqual(stat.S_IMODE(self.path.stat().st_mode), 0o640)
        for mode in (0o604, 0o400, 0o4755):
            self.path.chmod(mode)
            link = self.path.with_name("link")
            link.symlink_to(self.path)
            d[b"b"] = mode
            d.save(link)
            self.assertEqual((stat.S_IMODE(self.path.stat().st_mode), link.is_symlink(), Cedar.load(self.path)), (mode, True, d))
            link.unlink()
        # One that leads nowhere yet stays too.
        link.symlink_to(self.path.with_name("later"))
        d.save(link)
        self.assertEqual((link.is_symlink(), Cedar.load(self.path.with_name("later"))), (True, d))

    def test_owner(self):
        if os.geteuid() != 0:
            self.skipTest("only root gives files away")
        d = Cedar({b"a": 1})
        d.save(self.path)
        os.chown(self.path, NOBODY, NOBODY)
        d.save(self.path)
        found = self.path.stat()
        self.assertEqual((found.st_uid, found.st_gid), (NOBODY, NOBODY))

    def test_what_has_the_new_files_name_stays(self):
        def of_somebody_else(name):
            name.write_bytes(b"somebody else's")
            name.chmod(0)

        d = Cedar({b"a": 1})
        for make in (lambda name: name.mkdir(), lambda name: name.symlink_to("none"), of_somebody_else):
            for name in ("words.cedar.new", "words.cedar.1.new"):
                make(self.path.with_name(name))
            before = [self.path.with_name(name).lstat() for name in self.names() if name != self.path.name]
            d[b"b"] = len(d)
            d.save(self.path)
            self.assertEqual((Cedar.load(self.path), self.names()), (d, ["words.cedar", "words.cedar.1.new", "words.cedar.new"]))
            for name, was in zip(self.names()[1:], before):
                beside = self.path.with_name(name)
                self.assertEqual(beside.lstat(), was)
                beside.rmdir() if beside.is_dir() else beside.unlink()

    def test_two_savers(self):
        """Processes and threads that save to one path: each file is whole, and one of theirs."""
        few, many = Cedar({b"a": 1}), Cedar({b"%d" % i: i for i in range(5000)})

        def save_again(d):
            for _ in range(100):
                d.save(self.path)
                assert len(Cedar.load(self.path)) in (len(few), len(many))

        few.save(self.path)
        child = start_child(lambda: save_again(few))
        other = threading.Thread(target=save_again, args=(few,))
        other.start()
        save_again(many)
        other.join()
        self.assertEqual((is_met(child), self.names()), (True, [self.path.name]))

    def test_killed(self):
        """A process that is killed while it saves: the file is whole, and what it leaves beside is in nobody's way."""
        few, many, chance = Cedar({b"a": 1}), Cedar({b"%d" % i: i for i in range(5000)}), random.Random(7)

        def save_for_ever():
            while True:
                few.save(self.path)
                many.save(self.path)

        for _ in range(50):
            few.save(self.path)
            child = start_child(save_for_ever)
            time.sleep(chance.uniform(0, 0.02))
            os.kill(child, signal.SIGKILL)
            self.assertEqual(os.WTERMSIG(os.waitpid(child, 0)[1]), signal.SIGKILL)
            self.assertIn(self.path.read_bytes(), (few.to_bytes(), many.to_bytes()))
        many.save(self.path)
        self.assertEqual(Cedar.load(self.path), many)

    @unittest.skipUnless(refused_calls(), "refuse.so isn't loaded")
    def test_each_call_fails(self):
        """In turn a look, two openings, a write, owner, mode, sync, close, the rename, and the sync and the close of the folder."""
        refuse = refused_calls()
        refuse.argtypes, refuse.restype = [ctypes.c_long, ctypes.c_int], ctypes.c_long
        old, new, path = Cedar({b"old": 1}), Cedar({b"new": 1}), os.fsencode(self.path)
        data = new.to_bytes()
        for for_good in (False, True):
            number, came = 0, True
            while came:
                number += 1
                old.save(self.path)
                refuse(number, for_good)
                failure = None
                try:
                    files._core.replace_file(path, data)
                except OSError as error:
                    failure = (error.errno, error.filename)
                came = refuse(0, False) < 0
                # The tenth call puts the folder on the disk: then the new file is there. An error of the last one is passed over.
                self.assertEqual(failure, (errno.ENOSPC, str(self.path)) if number <= 10 else None)
                left = [self.path.with_name("words.cedar.new")] if for_good and 4 <= number < 10 else []
                names = [self.path.name, *(beside.name for beside in left)]
                self.assertEqual((Cedar.load(self.path), self.names()), (new if number >= 10 else old, names))
                for beside in left:
                    beside.unlink()
            self.assertEqual(number, 12)

    def test_the_old_file_stays_after_an_error(self):
        Cedar({b"old": 1}).save(self.path)
        new = Cedar({b"%d" % i: i for i in range(5000)})

        def fails(work, number):
            with self.assertRaises(OSError) as caught:
                work()
            self.assertEqual((caught.exception.errno, Cedar.load(self.path), self.names()), (number, {b"old": 1}, [self.path.name]))

        def save_much():
            signal.signal(signal.SIGXFSZ, signal.SIG_IGN)
            resource.setrlimit(resource.RLIMIT_FSIZE, (4096, 4096))
            fails(lambda: new.save(self.path), errno.EFBIG)

        def save_in_the_folder():
            fails(lambda: new.save(self.path), errno.EACCES)

        self.assertTrue(is_met(start_child(save_much)))
        self.path.parent.chmod(0o555)
        self.assertTrue(is_met(start_child(save_in_the_folder, as_nobody=True)))
        self.path.parent.chmod(0o700)
        with self.assertRaises(FileNotFoundError) as caught:
            new.save(self.path.with_name("none") / "x")
        self.assertEqual(caught.exception.filename, str(self.path.with_name("none") / "x"))
        with self.assertRaises(IsADirectoryError):
            new.save(self.path.parent)
        with self.assertRaises(TypeError):
            new.save(io.StringIO())
        with self.assertRaises(TypeError):
            Cedar.load(io.StringIO(""))
        with self.assertRaises(FileNotFoundError):
            Cedar.load(self.path.with_name("none"))
        for name in range(100):
            self.path.with_name(f"words.cedar.{name}.new" if name else "words.cedar.new").touch()
        with self.assertRaises(FileExistsError):
            new.save(self.path)
        self.assertEqual((Cedar.load(self.path), len(self.names())), ({b"old": 1}, 101))

    def test_pipes_and_devices(self):
        d = Cedar({b"%d" % i: i for i in range(20000)})
        os.mkfifo(self.path)
        read = subprocess.Popen([sys.executable, "-c", "import sys; sys.stdout.buffer.write(open(sys.argv[1], 'rb').read())", str(self.path)], stdout=subprocess.PIPE)
        d.save(self.path)
        self.assertEqual((read.communicate()[0], self.path.is_fifo(), self.names()), (d.to_bytes(), True, [self.path.name]))
        d.save(os.devnull)
        self.assertTrue(stat.S_ISCHR(os.stat(os.devnull).st_mode))
        with self.assertRaises(OSError) as caught:
            d.save("/dev/full")
        self.assertEqual(caught.exception.errno, errno.ENOSPC)

    def test_a_file_in_place_of_a_pipe(self):
        """Where a pipe was found, and a file is by the time that it is opened, that stays. Where nothing is then, nothing is made."""
        Cedar({b"old": 1}).save(self.path)
        before = self.path.read_bytes()
        with mock.patch.object(files, "_is_special", return_value=True):
            with self.assertRaises(OSError) as caught:
                Cedar({b"new": 1}).save(self.path)
            self.assertEqual((caught.exception.errno, self.path.read_bytes(), self.names()), (errno.ENOTSUP, before, [self.path.name]))
            self.path.unlink()
            with self.assertRaises(FileNotFoundError):
                Cedar({b"new": 1}).save(self.path)
        self.assertEqual(self.names(), [])

    def test_damaged_files(self):
        data = Cedar({b"net": 1, b"ten": 2, b"nets": 3}).to_bytes()
        for damaged, status, text in [
            (b"", 20, "serialized cedar trie is truncated"),
            (data[:-1], 20, "serialized cedar trie is truncated"),
            (b"X" + data[1:], 21, "input is not a cedarwood serialized trie"),
            (data + b"X", 28, "serialized trie has trailing data"),
        ]:
            with self.assertRaises(CedarError) as caught:
                Cedar.load(damaged)
            self.assertEqual((caught.exception.status, str(caught.exception)), (status, text))
            # The file at a path is named, a file that is open isn't.
            self.path.write_bytes(damaged)
            for path in (self.path, str(self.path)):
                with self.assertRaises(CedarError) as caught:
                    Cedar.load(path)
                self.assertEqual((caught.exception.status, str(caught.exception)), (status, f"{self.path}: {text}"))
            with self.path.open("rb") as file, self.assertRaises(CedarError) as caught:
                Cedar.load(file)
            self.assertEqual(str(caught.exception), text)
        with self.assertRaises(CedarError) as caught:
            Cedar.load(data, memory_limit=100)
        self.assertEqual(caught.exception.status, 26)
        with self.assertRaises(ValueError):
            Cedar.load(data, memory_limit=-1)

    def test_files_that_do_not_end(self):
        """They are read as far as the limit says."""
        Cedar({b"net": 1}).save(self.path)
        os.truncate(self.path, 1 << 40)
        for path, status in (("/dev/zero", 21), (self.path, 28)):
            with self.assertRaises(CedarError) as caught:
                Cedar.load(path, memory_limit=100000)
            self.assertEqual(caught.exception.status, status)
        with self.assertRaises(ValueError):
            Cedar.load(self.path, memory_limit=-1)

    def test_any_byte_changed(self):
        """Each is refused, or is the file of a sound dictionary."""
        chance = random.Random(9)
        for reduced in (False, True):
            data = Cedar({b"net": 1, b"ten": 2, b"nets": 3}, reduced=reduced).to_bytes()
            for place in range(len(data)):
                damaged = bytearray(data)
                damaged[place] ^= 1 << chance.randrange(8)
                try:
                    d = Cedar.load(bytes(damaged))
                except CedarError as error:
                    self.assertGreaterEqual(error.status, 20)
                else:
                    self.assertEqual(dict(d.items()), {key: d[key] for key in d})

    def test_keys_that_are_no_text(self):
        for keys in ([b"\xff"], [b"a\xc3", b"a\xc3\xa4"], [b"\xc3", b"\xa4"]):
            data = Cedar(dict.fromkeys(keys, 1)).to_bytes()
            with self.assertRaises(ValueError) as caught:
                Cedar.load(data, text=True)
            text = "the file has a key that isn't UTF-8: load it with text=False"
            self.assertEqual(str(caught.exception), text)
            self.path.write_bytes(data)
            with self.assertRaises(ValueError) as caught:
                Cedar.load(self.path, text=True)
            self.assertEqual(str(caught.exception), f"{self.path}: {text}")
        data = Cedar({"käse": 1, "漢": 2}, text=True).to_bytes()
        self.assertEqual(Cedar.load(data, text=True), {"käse": 1, "漢": 2})


if __name__ == "__main__":
    unittest.main()

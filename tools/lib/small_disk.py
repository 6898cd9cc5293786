"""A disk for the log of one node of the storm that can be filled, and given room again."""
import contextlib
import os
import resource
import subprocess

DISK_BYTES = 8 << 20


class SmallDisk:
    """A small file system in memory, for the log of one node, as long as it is entered."""

    def __init__(self, folder):
        self.folder = folder
        self.folder.mkdir()

    def __enter__(self):
        subprocess.run(["mount", "-t", "tmpfs", "-o", f"size={DISK_BYTES}", "tmpfs", self.folder], check=True, capture_output=True)
        return self

    def __exit__(self, *_):
        for words in (["umount"], ["umount", "-l"]):
            if subprocess.run([*words, self.folder], capture_output=True).returncode == 0:
                return
        print(f"storm: {self.folder} is still mounted", flush=True)

    def place(self, post):
        post.node.log = self.folder / post.node.log.name
        post.node.log.touch()

    def shrink(self, post):
        """Has sqlite3 take up what stands beside the log of a node that does not run, so that the node needs room for its next write."""
        try:
            import sqlite3
        except ImportError:
            return
        with contextlib.suppress(sqlite3.Error), contextlib.closing(sqlite3.connect(post.node.log)) as store:
            store.execute("SELECT count(*) FROM writes").fetchall()

    def fill(self, _):
        with contextlib.suppress(OSError), open(self.folder / "filler", "ab", buffering=0) as filler:
            while True:
                filler.write(bytes(4096))

    def free(self, _):
        # (a process that is just being started may have the file open still, so to remove it alone would give back nothing yet)
        with contextlib.suppress(FileNotFoundError):
            os.truncate(self.folder / "filler", 0)


class NoGrowth:
    """In place of a small disk: no file of the node may grow for a while."""

    def __init__(self):
        self.before = None

    def __enter__(self):
        return self

    def __exit__(self, *_):
        pass

    def place(self, post):
        # (the signal for a file that is too large stays ignored, as it is here)
        post.node.how["restore_signals"] = False

    def shrink(self, _):
        pass

    def fill(self, post):
        if post.is_up():
            self.before = post.limit(resource.RLIMIT_FSIZE, 0)

    def free(self, post):
        if post.is_up():
            post.limit(resource.RLIMIT_FSIZE, self.before)


@contextlib.contextmanager
def disk_in(folder):
    """A disk that can be filled, as long as it is entered."""
    with contextlib.ExitStack() as held:
        try:
            disk = held.enter_context(SmallDisk(folder))
        except (OSError, subprocess.CalledProcessError):
            disk = NoGrowth()
        yield disk

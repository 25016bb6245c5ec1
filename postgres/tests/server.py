"""A PostgreSQL server for tests, which has the extension as it was built. It runs as an unprivileged user, on a Unix socket in a
temporary folder. The tests install nothing: they copy the server's programs into the folder, where these find the extension."""
import os
import pwd
import shutil
import signal
import subprocess
import sys
import tempfile
import time

# SIGTERM ends the tests by an exception, so that they stop their servers.
signal.signal(signal.SIGTERM, lambda *_: sys.exit(1))
HERE = os.path.dirname(os.path.dirname(os.path.realpath(__file__)))
SETTINGS = ["listen_addresses=", "fsync=off", "jit=off", "max_connections=40", "logging_collector=off"]


def configured(name):
    """A folder of the PostgreSQL that the extension was built for."""
    words = [os.environ.get("PG_CONFIG", "pg_config"), f"--{name}"]
    return subprocess.run(words, check=True, capture_output=True, text=True).stdout.strip()


def mirror(folder, into):
    """Creates a folder of symbolic links to the files of another folder."""
    os.makedirs(into)
    for name in os.listdir(folder):
        os.symlink(f"{folder}/{name}", f"{into}/{name}")


class Server:
    def __init__(self, library=f"{HERE}/boruvka.so", wrapper=(), settings=(), limits=None):
        """`wrapper` is a command that runs the server, and `limits` are arguments of `ulimit`."""
        self.library, self.wrapper, self.settings, self.limits = library, wrapper, settings, limits
        self.user, self.owner = None, {}
        if os.geteuid() == 0:
            names = {it.pw_name for it in pwd.getpwall()}
            self.user = next(it for it in ("postgres", "nobody") if it in names)
            self.owner = {"user": self.user, "group": pwd.getpwnam(self.user).pw_gid, "extra_groups": []}

    def __enter__(self):
        self.folder = tempfile.mkdtemp(prefix="boruvka-pg-")
        try:
            os.chmod(self.folder, 0o755)
            self._install()
            self.data = f"{self.folder}/data"
            for name in (self.data, f"{self.folder}/socket"):
                os.mkdir(name)
                if self.user:
                    shutil.chown(name, self.user)
            words = [f"{self.bin}/initdb", "-D", self.data, "-A", "trust", "-U", "tester", "--no-sync", "--locale=C", "-E", "UTF8"]
            self._run(words)
            self._start()
        except BaseException:
            self.__exit__()
            raise
        return self

    def __exit__(self, *_):
        started = getattr(self, "process", None)
        if started and started.poll() is None:
            started.terminate()
            try:
                started.wait(5)
            except subprocess.TimeoutExpired:
                started.send_signal(signal.SIGQUIT)
                started.wait(20)
        shutil.rmtree(self.folder, ignore_errors=True)

    def _install(self):
        bin_, share, library = (configured(it) for it in ("bindir", "sharedir", "pkglibdir"))
        self.bin = f"{self.folder}{bin_}"
        shutil.copytree(bin_, self.bin, symlinks=True)
        mirror(share, f"{self.folder}{share}")
        mirror(library, f"{self.folder}{library}")
        extensions = f"{self.folder}{share}/extension"
        os.remove(extensions)
        mirror(f"{share}/extension", extensions)
        names = [it for it in os.listdir(HERE) if it.endswith(".sql") or it.endswith(".control")]
        for source, into in [(self.library, f"{self.folder}{library}/boruvka.so"), *((f"{HERE}/{it}", f"{extensions}/{it}") for it in names)]:
            if os.path.lexists(into):
                os.remove(into)
            shutil.copy(source, into)

    def _run(self, words):
        ended = subprocess.run(words, cwd="/", stdin=subprocess.DEVNULL, capture_output=True, text=True, check=False, **self.owner)
        if ended.returncode:
            raise RuntimeError(f"{words[0]}: {ended.stdout}{ended.stderr}")

    def _start(self):
        settings = [f"unix_socket_directories={self.folder}/socket", *SETTINGS, *self.settings]
        words = [*self.wrapper, f"{self.bin}/postgres", "-D", self.data, *(word for it in settings for word in ("-c", it))]
        if self.limits:
            words = ["sh", "-c", f'ulimit {self.limits} && exec "$@"', "sh", *words]
        self.log = f"{self.folder}/log"
        with open(self.log, "wb") as log:
            self.process = subprocess.Popen(words, cwd="/", stdin=subprocess.DEVNULL, stdout=log, stderr=log, **self.owner)
        self.wait()
        self.expect("CREATE DATABASE trial", database="postgres")
        self.expect("CREATE EXTENSION boruvka")

    def wait(self):
        """Waits until the server takes connections."""
        until = time.monotonic() + 120
        while self.psql("SELECT 1", database="postgres")[0]:
            if self.process.poll() is not None or time.monotonic() > until:
                raise RuntimeError(f"the server doesn't start: {self.logged()[-2000:]}")
            time.sleep(0.05)

    def use(self, library):
        """Makes later sessions load this build of the extension."""
        shutil.copy(library, f"{self.folder}/new.so")
        os.replace(f"{self.folder}/new.so", f"{self.folder}{configured('pkglibdir')}/boruvka.so")

    def logged(self):
        with open(self.log, encoding="utf-8", errors="replace") as it:
            return it.read()

    def words(self, database="trial"):
        """The command psql with its first arguments."""
        return [f"{self.bin}/psql", "-X", "-q", "-A", "-t", "-v", "ON_ERROR_STOP=1", "-h", f"{self.folder}/socket", "-U", "tester", "-d", database]

    def start(self, script, database="trial"):
        """Starts a process that runs a script."""
        started = subprocess.Popen([*self.words(database), "-c", script], stdin=subprocess.DEVNULL, stdout=subprocess.PIPE, stderr=subprocess.PIPE, text=True)
        return started

    def psql(self, script, database="trial", seconds=600):
        """Runs a script, and returns its exit status, standard output and standard error."""
        ended = subprocess.run(self.words(database), input=script, capture_output=True, text=True, timeout=seconds, check=False)
        return ended.returncode, ended.stdout, ended.stderr

    def expect(self, script, database="trial", seconds=600):
        """Runs a script, which has to succeed, and returns its standard output."""
        status, output, errors = self.psql(script, database, seconds)
        if status:
            raise AssertionError(f"{script:.300}: {errors}")
        return output

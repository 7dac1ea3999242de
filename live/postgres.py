"""A PostgreSQL server of this machine, in a folder of its own, for what is tried beside one; and the program of crates/test_rows."""
import os
import pathlib
import pwd
import shutil
import subprocess
import sys
import tempfile

TOP = pathlib.Path(__file__).resolve().parent.parent
ROWS = TOP / "crates" / "test_rows"


def fail(why):
    sys.exit(f"live: {why}")


def tool(name):
    places = [os.environ.get("PATH", "")] + [str(p) for p in sorted(pathlib.Path("/usr/lib/postgresql").glob("*/bin"), reverse=True)]
    found = shutil.which(name, path=os.pathsep.join(places))
    return found or fail(f"the tool '{name}' of PostgreSQL is missing (on Debian: apt-get install postgresql)")


def run_rows(family, rows):
    """What the program prints of these rows of a family, but for the lines `FILE: N rows`."""
    if not (ROWS / "out" / "test_rows").exists():
        fail("the program isn't built: rt run in crates/test_rows builds it")
    with tempfile.TemporaryDirectory() as folder:
        for file in (ROWS / "data").glob("*.rows"):
            (pathlib.Path(folder) / file.name).write_text("\n".join(rows) + "\n" if file.stem == family else "")
        text = subprocess.run([ROWS / "out" / "test_rows"], cwd=folder, capture_output=True, text=True, check=True).stdout
    return [line for line in text.splitlines() if not line.endswith(" rows")]


class Server:
    def __init__(self):
        self.initdb, self.pg_ctl, self.psql = tool("initdb"), tool("pg_ctl"), tool("psql")
        self.folder = pathlib.Path(tempfile.mkdtemp(prefix="live."))
        self.user = pwd.getpwuid(os.getuid()).pw_name if os.getuid() else "postgres"
        self.as_user = [] if os.getuid() else ["runuser", "-u", self.user, "--"]
        if self.as_user:
            try:
                shutil.chown(self.folder, self.user)
            except LookupError:
                fail("the server doesn't run as root, and there is no user 'postgres'")

    def call(self, *words):
        subprocess.run(self.as_user + [str(word) for word in words], cwd=self.folder, check=True, stdout=subprocess.DEVNULL)

    def start(self):
        data = self.folder / "data"
        self.call(self.initdb, "-D", data, "-U", "admin", "-A", "trust", "-E", "UTF8", "--locale=C")
        (data / "pg_hba.conf").write_text("local all admin trust\nlocal all all scram-sha-256\n")
        self.call(self.pg_ctl, "-D", data, "-w", "-l", self.folder / "log", "-o", f"-k {self.folder} -c listen_addresses=''", "start")

    def stop(self):
        if (self.folder / "data" / "postmaster.pid").exists():
            self.call(self.pg_ctl, "-D", self.folder / "data", "-w", "-m", "fast", "stop")
        shutil.rmtree(self.folder, ignore_errors=True)

    def ask(self, command):
        words = [self.psql, "-h", str(self.folder), "-U", "admin", "-d", "postgres", "-X", "-q", "-A", "-t", "-v", "ON_ERROR_STOP=1"]
        environment = dict(os.environ, PGCLIENTENCODING="UTF8")
        return subprocess.run(words, input=command.encode(), env=environment, capture_output=True, check=True).stdout.decode().split()

    @property
    def socket(self):
        return str(self.folder / ".s.PGSQL.5432")

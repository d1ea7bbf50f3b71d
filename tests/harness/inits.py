"""Servers in containers of podman, below each process 1 that `--init` may put before them, under what was learned of them."""
import glob
import os
import shutil
import subprocess
from collections import namedtuple

from harness.engines import Podman
from harness.places import CCELL

# `learn .. for podman` has what each of these calls.
INITS = {"catatonit": "/usr/libexec/podman/catatonit", "tini": "/usr/bin/tini", "dumb-init": "/usr/bin/dumb-init"}
POSTGRES = max(glob.glob("/usr/lib/postgresql/*/bin/postgres"), default="/usr/bin/postgres")
NGINX = "daemon off; pid @/pid; error_log stderr; events {} http { access_log off; " + "".join(
    f"{each}_temp_path @/{each}; " for each in ("client_body", "proxy", "fastcgi", "uwsgi", "scgi")) + "server { listen 127.0.0.1:7803; root @; } }"
# The command, whose process it is, and what asks it, which has to print `hello`. `@` is a folder, here and in the container.
Server = namedtuple("Server", "command user ask")
SERVERS = {
    "redis": Server(["/usr/bin/redis-server", "--port", "7801", "--save", ""], "root", "redis-cli -p 7801 echo hello"),
    "python": Server(["/usr/bin/python3", "-m", "http.server", "-d", "@", "7802"], "root", "curl -s 127.0.0.1:7802/hello"),
    "nginx": Server(["/usr/sbin/nginx", "-c", "@/nginx.conf"], "root", "curl -s 127.0.0.1:7803/hello"),
    "postgres": Server([POSTGRES, "-D", "@/base", "-p", "7804", "-k", "@"], "postgres",
                       "psql -h @ -p 7804 -U postgres -Atc \"select 'hello'\" postgres"),
}


def lacking_of(name):
    """A program that a server needs, and that is not installed."""
    server = SERVERS[name]
    return next((each for each in (server.command[0], server.ask.split()[0], "setpriv") if shutil.which(each) is None), None)


class Bench:
    """A podman with crun, whose containers have the programs of this machine, and a folder that is the same here and there."""

    def __init__(self, folder, name):
        self.folder, self.engine, self.data = folder, Podman("crun", folder), f"{folder}/data"
        os.chmod(folder, 0o755)
        shutil.rmtree(f"{self.engine.root}/bin")
        for each in ("usr", "etc", "tmp", "run", "var", "dev", "proc", "sys"):
            os.mkdir(f"{self.engine.root}/{each}")
        for each in ("bin", "lib", "lib64", "sbin"):
            os.symlink(f"usr/{each}", f"{self.engine.root}/{each}")
        for each in (self.data, f"{self.engine.root}/tmp"):
            os.makedirs(each, exist_ok=True)
            os.chmod(each, 0o777)
        for each, text in (("hello", "hello"), ("nginx.conf", NGINX)):
            with open(f"{self.data}/{each}", "w", encoding="utf-8") as file:
                file.write(text.replace("@", self.data))
        self.server = Server(*(placed(part, self.data) for part in SERVERS[name]))
        if name == "postgres":
            self.ran([*self.as_user(), f"{os.path.dirname(POSTGRES)}/initdb", "-D", f"{self.data}/base"])

    def as_user(self):
        return ["setpriv", f"--reuid={self.server.user}", f"--regid={self.server.user}", "--clear-groups"]

    def ran(self, command):
        done = subprocess.run(command, stdin=subprocess.DEVNULL, capture_output=True, text=True, timeout=240, check=False, cwd=self.data)
        if done.returncode:
            raise RuntimeError(f"{' '.join(command[:3])}: {done.stdout[-200:]}{done.stderr[-300:]}")
        return done.stdout

    def answers(self):
        """Whether the server answers within a minute."""
        loop = f"for each in $(seq 300); do [ \"$({self.server.ask} 2>/dev/null)\" = hello ] && exit 0; sleep 0.2; done; exit 1"
        return subprocess.run(["sh", "-c", loop], stdin=subprocess.DEVNULL, capture_output=True, timeout=240, check=False).returncode == 0

    def logged(self):
        """The log of the server."""
        path = f"{self.folder}/server.log"
        traced = subprocess.Popen([*self.as_user(), "strace", "-f", "-n", "-e", "raw=all", "-o", f"{self.data}/log", *self.server.command],
                                  stdin=subprocess.DEVNULL, stdout=subprocess.DEVNULL, stderr=subprocess.DEVNULL, cwd=self.data)
        answered = self.answers()
        subprocess.run(["pkill", "-TERM", "-P", str(traced.pid)], check=False)
        traced.wait(60)
        if not answered:
            raise RuntimeError("it does not answer under strace")
        shutil.move(f"{self.data}/log", path)
        self.ran(["cp", "-a", self.data, f"{self.folder}/ended"])
        return path

    def first_wrong(self, name, init, log):
        """Why the server does not answer below a process 1, under what was learned: nothing if it does. It begins as it ended below strace:
        after a kill it does more, which no log shows."""
        self.ran(["sh", "-c", "find . -mindepth 1 -delete && cp -a ../ended/. ."])
        with open(f"{self.folder}/section.json", "w", encoding="utf-8") as file:
            file.write(self.ran([os.path.abspath(CCELL), "learn", "linux-x86-64", log, "for", "podman"]))
        command = [self.engine.command, "run", "-d", "--name", name, "--init", "--init-path", init, "--user", self.server.user,
                   "--security-opt", f"seccomp={self.folder}/section.json", "--network", "host", "--cgroups", "disabled",
                   "--ulimit", "nofile=1024:1024", "--ulimit", "nproc=1024:1024", "-v", "/usr:/usr:ro", "-v", "/etc:/etc:ro",
                   "-v", f"{self.data}:{self.data}", "--rootfs", self.engine.root, *self.server.command]
        try:
            self.ran(command)
            if self.answers():
                return None
            done = subprocess.run([self.engine.command, "logs", name], capture_output=True, text=True, timeout=60, check=False)
            return f"it does not answer below {init}: {done.stdout[-200:]}{done.stderr[-300:]}"
        except RuntimeError as why:
            return f"below {init}: {why}"
        finally:
            subprocess.run([self.engine.command, "rm", "-f", "-t", "0", name], capture_output=True, timeout=120, check=False)


def placed(part, folder):
    """A part of a server with the folder in its place."""
    return [each.replace("@", folder) for each in part] if isinstance(part, list) else part.replace("@", folder)


def tried(name, folder):
    """For each process 1 that is installed why a server does not answer below it, under what was learned of the server alone."""
    bench = Bench(folder, name)
    log = bench.logged()
    for each, path in INITS.items():
        if not os.path.exists(path):
            print(f"{name} below {each}: passed over, since there is no {path}")
            continue
        yield each, bench.first_wrong(f"{name}-{each}-{os.getpid()}", path, log)

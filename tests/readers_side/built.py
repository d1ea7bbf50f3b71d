"""The readers of tests/readers: docker's, podman's, containerd's and runc's packages of Go, and crun's parser in C, of two suites of Debian."""
import glob
import json
import os
import shutil
import subprocess

from guests.packages import carried_out
from harness.fetched import cache, source, unpacked
from harness.places import TOP

HERE = f"{TOP}/tests/readers_side"
GO = ("golang-1.19-go", "golang-1.19-src")
LIBRARIES = ("libseccomp2", "libseccomp-dev", "libyajl2", "libyajl-dev")
# What the engines' own packages are, and which others they are compiled with. Those of the older suite serve both.
OWN = tuple(f"golang-github-{name}-dev" for name in ("docker-docker", "containers-common", "containerd-containerd", "opencontainers-runc",
                                                      "opencontainers-specs", "seccomp-libseccomp-golang"))
OTHERS = ("golang-golang-x-sys-dev", "golang-golang-x-net-dev", "golang-github-sirupsen-logrus-dev", "golang-dbus-dev",
          "golang-github-coreos-go-systemd-dev", "golang-github-cyphar-filepath-securejoin-dev", "golang-github-moby-sys-dev")
OLD, NEW = "bookworm", "trixie"
# The suites by the numbers of their systems, and the engines of a bundle and of a section by itself.
SYSTEMS = {OLD: "12", NEW: "13"}
OF_BUNDLES, OF_SECTIONS = ("runc", "crun"), ("docker", "podman", "containerd")
# What containerd's package of seccomp takes of its others, which want hundreds of packages: types that it hands on.
STUBS = {
    "containers": "package containers\n\ntype Container struct{}\n",
    "oci": """package oci

import (
	"context"

	"github.com/containerd/containerd/containers"
	"github.com/opencontainers/runtime-spec/specs-go"
)

type Client interface{}
type SpecOpts func(context.Context, Client, *containers.Container, *specs.Spec) error
""",
}
# Sources of crun's parser that read other things.
UNREAD = ("validate", "basic_test", "image_")


class Reader:
    """A reader that runs and is asked for one text after the other. One that ends is begun anew, and has refused."""

    def __init__(self, name, words, env):
        self.name, self.words, self.env, self.process = name, words, env, None

    def ask(self, text):
        """The reader's answer to a text."""
        self.process = self.process or subprocess.Popen(self.words, stdin=subprocess.PIPE, stdout=subprocess.PIPE,
                                                        stderr=subprocess.DEVNULL, env=self.env)
        try:
            self.process.stdin.write(text.hex().encode() + b"\n")
            self.process.stdin.flush()
            line = self.process.stdout.readline()
        except BrokenPipeError:
            line = b""
        if line:
            return json.loads(line)
        self.process.wait()
        told, self.process = f"it ends by {self.process.returncode}", None
        return {"error": told}

    def end(self):
        """Ends the process."""
        if self.process:
            self.process.stdin.close()
            self.process.wait()


def pkg_config(room, root):
    """What tells Go's compiler where libseccomp is."""
    with open(f"{room}/pkg-config", "w", encoding="utf-8") as file:
        file.write(f"#!/bin/sh\ncase $* in *--libs*) echo -L{root}/usr/lib/x86_64-linux-gnu -lseccomp ;; *) echo -I{root}/usr/include ;; esac\n")
    os.chmod(file.name, 0o755)
    return file.name


def compiled_go(room, suite, roots, folder):
    """The program of the engines of Go, of a suite's packages."""
    os.makedirs(f"{room}/src/readers", exist_ok=True)
    shutil.copy(f"{HERE}/readers.go", f"{room}/src/readers/readers.go")
    for name, text in STUBS.items():
        stub = f"{room}/src/github.com/containerd/containerd/{name}"
        os.makedirs(stub, exist_ok=True)
        with open(f"{stub}/stub.go", "w", encoding="utf-8") as file:
            file.write(text)
    paths = [f"{roots[name]}/usr/share/gocode" for name in dict.fromkeys((suite, OLD))]
    settings = {"GOROOT": f"{roots[OLD]}/usr/lib/go-1.19", "GO111MODULE": "off", "GOCACHE": f"{folder}/go", "GOFLAGS": "", "CGO_ENABLED": "1",
                "GOPATH": ":".join([room, *paths]), "PKG_CONFIG": pkg_config(room, roots[OLD])}
    program = f"{room}/readers{SYSTEMS[suite]}"
    carried_out([f"{settings['GOROOT']}/bin/go", "build", "-tags", "seccomp", "-o", program, "readers"], env={**os.environ, **settings})
    return program


def compiled_crun(room, suite, root, tree):
    """The program with crun's parser, of a suite's source."""
    program, config = f"{room}/crun{SYSTEMS[suite]}", f"{room}/config"
    os.makedirs(config, exist_ok=True)
    with open(f"{config}/config.h", "w", encoding="utf-8") as file:
        file.write("#define HAVE_STDLIB_H 1\n")
    parser = f"{tree}/libocispec/src"
    sources = [name for name in sorted(glob.glob(f"{parser}/ocispec/*.c")) if not any(part in os.path.basename(name) for part in UNREAD)]
    libraries = [f"{root}/usr/lib/x86_64-linux-gnu/{name}" for name in ("libyajl.so.2", "libseccomp.so.2")]
    carried_out([os.environ.get("CC", "cc"), "-O0", "-w", "-D_GNU_SOURCE", f"-I{config}", f"-I{root}/usr/include", f"-I{parser}", "-o", program,
                 f"{HERE}/crun.c", *sources, *libraries])
    return program


def fetched(fetches):
    """The folder of the packages, that of each suite's packages in it, and those of crun's sources."""
    folder = cache("readers")
    roots = {OLD: unpacked(folder, OLD, (*GO, *LIBRARIES, *OWN, *OTHERS), fetches), NEW: unpacked(folder, NEW, OWN, fetches)}
    return folder, roots, {suite: source(folder, suite, "crun", fetches) for suite in SYSTEMS}


def readers(room, fetches):
    """All readers by their names: an engine and the number of its system."""
    folder, roots, trees = fetched(fetches)
    env = {**os.environ, "LD_LIBRARY_PATH": f"{roots[OLD]}/usr/lib/x86_64-linux-gnu"}
    found = {}
    for suite, number in SYSTEMS.items():
        of_go = compiled_go(room, suite, roots, folder)
        words = {**{engine: [of_go, engine] for engine in ("docker", "podman", "containerd", "runc")},
                 "crun": [compiled_crun(room, suite, roots[OLD], trees[suite])]}
        found.update({f"{engine}{number}": Reader(f"{engine}{number}", word, env) for engine, word in words.items()})
    return found

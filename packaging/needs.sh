# Read by `source`: which packages of Debian the libraries and the tests want, which of them are missing here, and how they are installed.

# Prints the packages without which no test runs, or the libraries of dist/ cannot be built and compared, as far as they are missing.
missing_for_gate() {
    command -v python3 >/dev/null || echo python3
    command -v cc >/dev/null || echo gcc
    command -v ld >/dev/null || echo binutils
    [ -e /usr/include/features.h ] || echo libc6-dev
    command -v aarch64-linux-gnu-gcc >/dev/null || echo gcc-aarch64-linux-gnu
    [ -e /usr/aarch64-linux-gnu/include/features.h ] || echo libc6-dev-arm64-cross
}

# Prints the packages that parts of ./test want besides, as far as they are missing. A line names a package and a command of it.
missing_for_parts() {
    local package command
    while read -r package command; do
        command -v "$command" >/dev/null || echo "$package"
    done <<'TABLE'
git git
strace strace
bubblewrap bwrap
busybox busybox
curl curl
crun crun
runc runc
qemu-user qemu-aarch64
TABLE
    missing_for_coq
    ldconfig -p 2>/dev/null | grep -q 'libseccomp\.so\.2' || echo libseccomp2
}

# Prints the packages that tests/coq wants besides, as far as they are missing.
missing_for_coq() {
    command -v make >/dev/null || echo make
    command -v coqc >/dev/null || echo coq
    command -v ocamlopt >/dev/null || echo ocaml-nox
}

# Prints the packages of servers, engines and languages that parts of ./test try, as far as they are missing. Some begin to run a service
# when they are installed, so nobody installs them unasked.
missing_for_engines() {
    local package command
    while read -r package command; do
        command -v "$command" >/dev/null || [ -x "/usr/sbin/$command" ] || echo "$package"
    done <<'TABLE'
nginx nginx
redis-server redis-server
podman podman
docker.io dockerd
golang-go go
rustc rustc
TABLE
}

# Fetches into the user's cache what tests/linux and tests/readers compile: Linux's source and the engines' packages. Needs no root. What
# cannot be had is told by these tests.
fetch_for_tests() {
    tests/linux --fetch >&2 || true
    tests/readers --fetch >&2 || true
}

# Installs packages if this is root of a Debian. What is printed goes to standard error.
install_packages() {
    [ $# -gt 0 ] && [ "$(id -u)" = 0 ] && command -v apt-get >/dev/null || return 0
    export DEBIAN_FRONTEND=noninteractive
    { apt-get -q -o DPkg::Lock::Timeout=600 update &&
        apt-get -q -o DPkg::Lock::Timeout=600 install -y --no-install-recommends "$@"; } >&2 ||
        echo 'apt-get could not install what is missing' >&2
}

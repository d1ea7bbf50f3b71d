"""The kernels that are booted: a row each. What a machine's calls are called and numbered is in kernel_side/machines.py."""
from dataclasses import dataclass


@dataclass(frozen=True)
class Kernel:
    """A kernel of Debian and the machine that it is booted on."""

    debian: str  # Debian's name of the architecture
    image: str  # the package that names the newest kernel
    emulator: str  # the program that emulates the machine
    comes_with: str  # the package of this host that has it
    board: tuple  # what that program is told of the machine
    console: str  # the console's device, as the kernel calls it
    bus: str  # how virtio's devices are attached
    programs: tuple  # the machines whose programs it runs, each with its compiler and the packages of that
    further: str = ""  # what the kernel is told besides
    library: str = ""  # the folder of dist/ with our libseccomp.so.2 for it
    memory: int = 1024  # megabytes


KERNELS = {
    "arm64": Kernel(
        debian="arm64",
        image="linux-image-arm64",
        emulator="qemu-system-aarch64",
        comes_with="qemu-system-arm",
        board=("-M", "virt", "-cpu", "cortex-a57"),
        console="ttyAMA0",
        bus="pci",
        programs=(
            ("aarch64", "aarch64-linux-gnu-gcc", "gcc-aarch64-linux-gnu libc6-dev-arm64-cross"),
            ("arm", "arm-linux-gnueabihf-gcc", "gcc-arm-linux-gnueabihf libc6-dev-armhf-cross"),
        ),
        further="kpti=0",
        library="aarch64",
        memory=2048,
    ),
    "riscv64": Kernel(
        debian="riscv64",
        image="linux-image-riscv64",
        emulator="qemu-system-riscv64",
        comes_with="qemu-system-misc opensbi",
        board=("-M", "virt"),
        console="ttyS0",
        bus="pci",
        programs=(("riscv64", "riscv64-linux-gnu-gcc", "gcc-riscv64-linux-gnu libc6-dev-riscv64-cross"),),
    ),
    "ppc64el": Kernel(
        debian="ppc64el",
        image="linux-image-powerpc64le",
        emulator="qemu-system-ppc64",
        comes_with="qemu-system-ppc qemu-slof",
        board=("-M", "pseries,cap-cfpc=broken,cap-sbbc=broken,cap-ibs=broken", "-cpu", "power9"),
        console="hvc0",
        bus="pci",
        programs=(("ppc64le", "powerpc64le-linux-gnu-gcc", "gcc-powerpc64le-linux-gnu libc6-dev-ppc64el-cross"),),
    ),
    "s390x": Kernel(
        debian="s390x",
        image="linux-image-s390x",
        emulator="qemu-system-s390x",
        comes_with="qemu-system-misc",
        board=("-M", "s390-ccw-virtio"),
        console="ttysclp0",
        bus="ccw",
        programs=(
            ("s390x", "s390x-linux-gnu-gcc", "gcc-s390x-linux-gnu libc6-dev-s390x-cross"),
            ("s390", "s390x-linux-gnu-gcc -m31", "gcc-multilib-s390x-linux-gnu libc6-dev-s390-s390x-cross"),
        ),
    ),
}

# The kernel's modules that the guest loads where they are, in this order.
MODULES = (
    "fs/netfs/netfs",
    "net/9p/9pnet",
    "net/9p/9pnet_virtio",
    "fs/9p/9p",
    "fs/overlayfs/overlay",
    "net/vmw_vsock/vsock",
)

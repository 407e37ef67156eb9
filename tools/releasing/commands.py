"""The commands that the scripts of a release call, and which package of Debian has one that is not there."""
import shutil

# The packages whose name is another one than the command's.
PACKAGES = {
    "cc": "gcc", "dpkg-deb": "dpkg", "chroot": "coreutils", "unshare": "util-linux",
    **dict.fromkeys(("ar", "ld", "objcopy", "objdump", "readelf", "strip"), "binutils"),
}
KNOWN = {*PACKAGES, "debootstrap", "git", "lintian"}
ARM64 = "aarch64-linux-gnu-"


def package_of(command):
    """Debian's package that has a command, or None where it is not known. The binutils for ARM come with the compiler for it."""
    if command.startswith(ARM64):
        return "gcc-aarch64-linux-gnu"
    return PACKAGES.get(command, command) if command in KNOWN else None


def lacking(command):
    """What is said of a command that is not there."""
    package = package_of(command)
    return f"the command {command} is not on the PATH{f': Debian has it in the package {package}' if package else ''}"


def first_lacking(*commands):
    """What is said of the first of the commands that is not there, or None where all are."""
    return next((lacking(it) for it in commands if not shutil.which(it)), None)

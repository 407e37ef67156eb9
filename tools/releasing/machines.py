"""The machines that the library is made for, x86-64 and 64-bit ARM, and the tools for each: on the other one those of Debian's cross compiler."""
import os
import platform
import typing


class Machine(typing.NamedTuple):
    """A machine as `uname -m`, compilers, the kit and Debian name it, and the oldest processor of it as the kit does."""

    name: str
    system: str
    target: str
    processor: str
    debian: str

    def tool(self, name):
        """A tool of the binutils for the machine."""
        return name if platform.machine() == self.name else f"{self.system}-{name}"

    def compiler(self):
        """The C compiler for the machine."""
        return (os.environ.get("CC") or "cc") if platform.machine() == self.name else f"{self.system}-gcc"

    def tools(self):
        """The compiler and the binutils that the library is made by."""
        return [self.compiler(), *map(self.tool, ("ar", "ld", "objcopy", "objdump", "readelf", "strip"))]


X86 = Machine("x86_64", "x86_64-linux-gnu", "x86_64-unknown-linux-gnu", "x86-64", "amd64")
ARM64 = Machine("aarch64", "aarch64-linux-gnu", "aarch64-unknown-linux-gnu", "generic", "arm64")

"""A system that tells a program something else."""

import mmap
import os
import struct

from serving import compiled, path


class System:
    """What `system.c` reads and counts."""

    FIELDS = ("shift", "receive_error", "send_error", "wait_error", "receives", "waits", "moments", "pace", "passed")

    def __init__(self):
        library = compiled("system.c", "-shared", "-fPIC")
        self.file = open(path("told"), "w+b")
        self.file.truncate(8 * len(self.FIELDS))
        self.told = mmap.mmap(self.file.fileno(), 8 * len(self.FIELDS))
        self.environment = {**os.environ, "LD_PRELOAD": library, "SYSTEM": path("told")}

    def tell(self, field, number):
        struct.pack_into("=q", self.told, 8 * self.FIELDS.index(field), number)

    def count(self, field):
        return struct.unpack_from("=q", self.told, 8 * self.FIELDS.index(field))[0]

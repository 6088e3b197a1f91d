"""The file systems that are tried: how each is made and mounted, and whether the program's promise speaks of it."""
from typing import NamedTuple


class FileSystem(NamedTuple):
    kind: str  # as mount names it
    size: int  # in MiB
    make: str  # the command that makes it in a file, whose name follows
    package: str  # what has that command
    options: str = ""
    modules: str = ""  # of the kernel
    before: str = ""  # a command that is run before each mount; without a journal a system checks its disks first
    is_promised: bool = True


EXT4 = "mkfs.ext4 -q -F -b 4096 -E lazy_itable_init=0,lazy_journal_init=0"
EXT4_1K = EXT4.replace("4096", "1024")
EXT_CHECK = "e2fsck -fy /dev/nbd0"
FAT_MODULES = "vfat nls_cp437 nls_iso8859-1 nls_ascii nls_utf8"
FAT_CHECK = "fsck.vfat -a /dev/nbd0"

FILE_SYSTEMS = {
    "ext4": FileSystem("ext4", 256, EXT4, "e2fsprogs"),
    "ext4-writeback": FileSystem("ext4", 256, EXT4, "e2fsprogs", "data=writeback"),
    "ext4-journal": FileSystem("ext4", 256, EXT4, "e2fsprogs", "data=journal"),
    "ext4-1k": FileSystem("ext4", 256, EXT4_1K, "e2fsprogs"),
    "xfs": FileSystem("xfs", 320, "mkfs.xfs -q", "xfsprogs"),
    "btrfs": FileSystem("btrfs", 256, "mkfs.btrfs -q", "btrfs-progs", before="btrfs device scan --forget /dev/nbd0"),
    "f2fs": FileSystem("f2fs", 128, "mkfs.f2fs -q", "f2fs-tools", modules="f2fs crc32_generic"),
    "nilfs2": FileSystem("nilfs2", 256, "mkfs.nilfs2 -q", "nilfs-tools", modules="nilfs2"),
    "fat": FileSystem("vfat", 128, "mkfs.vfat -F 32", "dosfstools", "utf8", FAT_MODULES, FAT_CHECK, False),
    "jfs": FileSystem("jfs", 64, "mkfs.jfs -q", "jfsutils", before="fsck.jfs -a /dev/nbd0", is_promised=False),
    "ext2": FileSystem("ext2", 256, "mkfs.ext2 -q -F", "e2fsprogs", before=EXT_CHECK, is_promised=False),
    "ext4-no-journal": FileSystem(
        "ext4", 256, EXT4 + " -O ^has_journal", "e2fsprogs", before=EXT_CHECK, is_promised=False
    ),
}

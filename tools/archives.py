"""Archives whose bytes go by what is in them alone: each entry belongs to the owner 0 and has the same time, in the order of the names."""
import gzip
import hashlib
import io
import os
import tarfile
from dataclasses import dataclass


@dataclass(frozen=True, order=True)
class Entry:
    """A file, or a link to a target, by its path from the folder that the archive is unpacked in. The path of a folder ends in `/`."""

    path: str
    mode: int = 0o644
    content: bytes = b""
    target: str = ""

    def digest(self):
        """SHA-256 of the file's bytes, as hexadecimal digits."""
        return hashlib.sha256(self.content).hexdigest()


def folders_of(entries):
    """The folders that the entries stand in, each once."""
    paths = set()
    for entry in entries:
        path = os.path.dirname(entry.path)
        while path and path not in paths:
            paths.add(path)
            path = os.path.dirname(path)
    return [Entry(f"{path}/", 0o755) for path in paths]


def tar_of(entries, time, front=""):
    """The bytes of a tar archive, packed by gzip, of entries and their folders. Each name has a front before it."""
    packed = io.BytesIO()
    with tarfile.open(fileobj=packed, mode="w", format=tarfile.USTAR_FORMAT) as archive:
        for entry in sorted([*entries, *folders_of(entries)]):
            information = tarfile.TarInfo(front + entry.path)
            information.mtime, information.mode = time, entry.mode
            information.uname = information.gname = "root"
            if entry.target:
                information.type, information.linkname, information.mode = tarfile.SYMTYPE, entry.target, 0o777
            elif entry.path.endswith("/"):
                information.type = tarfile.DIRTYPE
            else:
                information.size = len(entry.content)
            archive.addfile(information, io.BytesIO(entry.content))
    return gzip_of(packed.getvalue())


def gzip_of(content):
    """The bytes packed by gzip, without a name and a time."""
    return gzip.compress(content, mtime=0)


def deb_of(control, data, time):
    """The bytes of a Debian package: of entries that tell of it, and of those that it installs below the root."""
    members = {
        "debian-binary": b"2.0\n",
        "control.tar.gz": tar_of(control, time, "./"),
        "data.tar.gz": tar_of(data, time, "./"),
    }
    parts = [b"!<arch>\n"]
    for name, content in members.items():
        parts.append(f"{name:<16}{time:<12}{0:<6}{0:<6}{'100644':<8}{len(content):<10}`\n".encode())
        parts.append(content + b"\n" * (len(content) % 2))
    return b"".join(parts)

"""Archives as bytes, the same for the same pieces: all below one folder, sorted, each with one time, and no name of who packed it."""
import gzip
import io
import posixpath
import tarfile
import time
import zipfile

from contents import parents

# What a .zip calls the system whose modes it has, and where it has them.
UNIX, MODE_SHIFT, REGULAR = 3, 16, 0o100000


def tar_of(pieces, top, moment):
    """The bytes of a .tar.gz."""
    packed = io.BytesIO()
    with tarfile.open(fileobj=packed, mode="w", format=tarfile.GNU_FORMAT) as tar:
        folders = {folder for it in pieces for folder in parents(it.place)} - {"."}
        for folder in sorted(folders | {""}):
            info = tarfile.TarInfo(posixpath.join(top, folder).rstrip("/"))
            info.type, info.mode, info.mtime = tarfile.DIRTYPE, 0o755, moment
            tar.addfile(info)
        for it in sorted(pieces, key=lambda it: it.place):
            info = tarfile.TarInfo(f"{top}/{it.place}")
            info.mode, info.mtime, info.size = it.mode, moment, len(it.content)
            if it.link:
                info.type, info.linkname, info.mode = tarfile.SYMTYPE, it.link, 0o777
            tar.addfile(info, io.BytesIO(it.content))
    zipped = io.BytesIO()
    with gzip.GzipFile(fileobj=zipped, mode="wb", filename="", mtime=moment) as it:
        it.write(packed.getvalue())
    return zipped.getvalue()


def zip_of(pieces, top, moment):
    """The bytes of a .zip, whose times are those of UTC, since it has no word for a zone."""
    packed = io.BytesIO()
    with zipfile.ZipFile(packed, "w") as whole:
        for it in sorted(pieces, key=lambda it: it.place):
            info = zipfile.ZipInfo(f"{top}/{it.place}", time.gmtime(moment)[:6])
            info.create_system, info.external_attr = UNIX, (REGULAR | it.mode) << MODE_SHIFT
            whole.writestr(info, it.content, zipfile.ZIP_DEFLATED, 9)
    return packed.getvalue()

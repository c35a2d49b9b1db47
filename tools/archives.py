"""Archives that are the same bytes whenever they are made: files in order, of root, with one time. A file is its bytes and its
mode, by its name in the archive."""
import gzip
import hashlib
import io
import os
import tarfile
import time
import zipfile


def compressed(data):
    """The bytes by gzip, without a time and a name."""
    return gzip.compress(data, 9, mtime=0)


def tar_of(files, seconds):
    """A .tar.gz, with the folders of its files."""
    folders = {name[:at] for name in files for at, letter in enumerate(name) if letter == "/"}
    made = io.BytesIO()
    with tarfile.open(fileobj=made, mode="w", format=tarfile.GNU_FORMAT) as tar:
        for name in sorted({*files, *folders}):
            about = tarfile.TarInfo(name)
            about.mtime, about.uname, about.gname = seconds, "root", "root"
            if name in folders:
                about.type, about.mode = tarfile.DIRTYPE, 0o755
                tar.addfile(about)
            else:
                data, about.mode = files[name]
                about.size = len(data)
                tar.addfile(about, io.BytesIO(data))
    return compressed(made.getvalue())


def zip_of(files, seconds):
    """A .zip; its times are of 1980 or later."""
    made = io.BytesIO()
    with zipfile.ZipFile(made, "w", zipfile.ZIP_DEFLATED) as archive:
        for name, (data, mode) in files.items():
            about = zipfile.ZipInfo(name, time.gmtime(max(seconds, 315532800))[:6])
            about.create_system, about.external_attr, about.compress_type = 3, (0o100000 | mode) << 16, zipfile.ZIP_DEFLATED
            archive.writestr(about, data)
    return made.getvalue()


def sums_of(files):
    """The lines of sha256sum."""
    return "".join(f"{hashlib.sha256(data).hexdigest()}  {name}\n" for name, data in sorted(files.items()))


def written(folder, files, seconds):
    """Writes the files below a folder, with their modes and times."""
    for name, (data, mode) in files.items():
        path = os.path.join(folder, name)
        os.makedirs(os.path.dirname(path), exist_ok=True)
        with open(path, "wb") as file:
            file.write(data)
        os.chmod(path, mode)
    for where, _, names in os.walk(folder, topdown=False):
        os.chmod(where, 0o755)
        for name in [*names, "."]:
            os.utime(os.path.join(where, name), (seconds, seconds))

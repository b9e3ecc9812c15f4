"""Images that md_prog assembles of sources."""
import pathlib
import subprocess
import tempfile

PROGRAM = pathlib.Path(__file__).resolve().parent.parent / "crates" / "md_prog" / "out" / "md_prog"


def write(source, image):
    subprocess.run([PROGRAM, "asm", source, image], check=True, stdout=subprocess.DEVNULL)


def image_of(source):
    with tempfile.TemporaryDirectory() as folder:
        image = pathlib.Path(folder) / "image"
        write(source, image)
        return image.read_bytes()


def list_of(source, folder):
    subprocess.run([PROGRAM, "asm", source, folder / "image", "--list", folder / "list"], check=True, stdout=subprocess.DEVNULL)
    return (folder / "list").read_text()

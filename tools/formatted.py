"""Generated files as `rt fmt` leaves them, so that the scripts need not know its layout."""
import os, subprocess, tempfile


def formatted(files):
    """path -> text after `rt fmt`, of path -> text; the paths begin with crates/NAME/."""
    with tempfile.TemporaryDirectory() as work:
        open(os.path.join(work, "crates.txt"), "w").write("")
        for path, text in files.items():
            os.makedirs(os.path.dirname(os.path.join(work, path)), exist_ok=True)
            open(os.path.join(work, path), "w").write(text)
        for crate in sorted({path.split("/")[1] for path in files}):
            subprocess.run(["rt", "fmt"], cwd=os.path.join(work, "crates", crate), check=True, stdout=subprocess.DEVNULL)
        return {path: open(os.path.join(work, path)).read() for path in files}

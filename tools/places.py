"""Where things are: in a checkout, or in a package, whose programs lie beside the script."""
import pathlib

ROOT = pathlib.Path(__file__).resolve().parent.parent


def program(name="romain"):
    """The built program, which may not be built yet."""
    packed = ROOT / "programs" / name
    return packed if packed.exists() else ROOT / "crates" / name / "out" / name

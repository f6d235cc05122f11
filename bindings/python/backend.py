"""Builds the wheel of the module, with the installed library in it (PEP 517). It needs nothing but Python: pip fetches nothing. The library is the file
that UAPUBSUB_LIBRARY names, else libuapubsub.so.0 in the folder that pkg-config tells."""
import base64, hashlib, os, struct, subprocess, tomllib, zipfile

HERE = os.path.dirname(os.path.realpath(__file__))
LIBRARY = "libuapubsub.so.0"
# e_machine of ELF, and what a wheel's name has for it
MACHINES = {62: "x86_64", 183: "aarch64"}


def build_wheel(wheel_directory, config_settings=None, metadata_directory=None):
    with open(os.path.join(HERE, "pyproject.toml"), "rb") as file:
        project = tomllib.load(file)["project"]
    library = read(library_file())
    tag = f"py3-none-linux_{MACHINES[struct.unpack_from('<H', library, 18)[0]]}"
    stem, info = f"{project['name']}-{project['version']}", f"{project['name']}-{project['version']}.dist-info"
    files = {f"uapubsub/{name}": read(os.path.join(HERE, "uapubsub", name)) for name in sorted(os.listdir(os.path.join(HERE, "uapubsub"))) if name.endswith(".py")}
    files[f"uapubsub/{LIBRARY}"] = library
    files[f"{info}/METADATA"] = lines("Metadata-Version: 2.1", f"Name: {project['name']}", f"Version: {project['version']}", f"Summary: {project['description']}",
                                      f"Requires-Python: {project['requires-python']}")
    files[f"{info}/WHEEL"] = lines("Wheel-Version: 1.0", "Generator: uapubsub", "Root-Is-Purelib: false", f"Tag: {tag}")
    files[f"{info}/RECORD"] = lines(*(record(name, data) for name, data in files.items()), f"{info}/RECORD,,")
    with zipfile.ZipFile(os.path.join(wheel_directory, f"{stem}-{tag}.whl"), "w", zipfile.ZIP_DEFLATED) as wheel:
        for name, data in files.items():
            # (one moment for all, so that the same files make the same wheel)
            wheel.writestr(zipfile.ZipInfo(name, (1980, 1, 1, 0, 0, 0)), data, zipfile.ZIP_DEFLATED)
    return f"{stem}-{tag}.whl"


def library_file():
    if "UAPUBSUB_LIBRARY" in os.environ:
        return os.environ["UAPUBSUB_LIBRARY"]
    told = subprocess.run(["pkg-config", "--variable=libdir", "uapubsub"], stdout=subprocess.PIPE, text=True)
    if told.returncode:
        raise SystemExit("uapubsub isn't installed where pkg-config looks: set PKG_CONFIG_PATH, or UAPUBSUB_LIBRARY to libuapubsub.so.0")
    return os.path.join(told.stdout.strip(), LIBRARY)


def read(name):
    with open(name, "rb") as file:
        return file.read()


def lines(*them):
    return "".join(f"{it}\n" for it in them).encode()


def record(name, data):
    """The line of RECORD of a file."""
    return f"{name},sha256={base64.urlsafe_b64encode(hashlib.sha256(data).digest()).rstrip(b'=').decode()},{len(data)}"

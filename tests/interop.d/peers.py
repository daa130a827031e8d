"""The other programs of tests/interop: KeePassXC by keepassxc-cli, File::KDBX by file_kdbx.pl, and pykeepass by
py_keepass.py, where it can be had.

KeePassXC 2.7.4's command line makes new vaults of KDBX 3.1 alone, but it keeps a vault's cipher, KDF with its figures
(Argon2's memory in whole KiB), custom dictionary and lack of compression when it saves it: what it changes is written
by it. It writes 4.1 where the document needs that, as an entry that was moved does, and else 4.0. It takes a salt of
Argon2 of 8 to 32 bytes. File::KDBX 0.906 refuses any dictionary with an empty value, and asks Argon2 for as many bytes
as the salt has: of vaults with Argon2 it opens those with a salt of 32 bytes alone. pykeepass 4.0.3 keeps both headers
of a vault, seeds and inner key included, when it saves it; it takes an empty password for none, and so opens no vault
that has one. What each makes of key files is in key_files.py.

All three uncover protected values of both inner algorithms. KeePassXC covers them with ChaCha20, whatever was there
before; File::KDBX with what it is told; pykeepass with what the inner header has.
"""
import dataclasses
import functools
import json
import os
import pathlib
import shutil
import subprocess
import sys
import tempfile

PERL = pathlib.Path(__file__).resolve().parent / "file_kdbx.pl"
PYKEEPASS = PERL.with_name("py_keepass.py")
ENVIRONMENT = os.environ | {"QT_QPA_PLATFORM": "offscreen", "LC_ALL": "C.UTF-8"}


class Failed(Exception):
    """What another program says where it does not do what it is asked."""


@dataclasses.dataclass(frozen=True)
class Credentials:
    name: str
    password: str | None
    key_file: pathlib.Path | None


def works(*words):
    return subprocess.run(words, capture_output=True).returncode == 0


def python_with_pykeepass():
    """A python3 that has pykeepass, or None. Debian's package is for Debian's own, which need not be the first."""
    pythons = [shutil.which("python3", path=folder) for folder in os.get_exec_path()]
    return next((python for python in pythons if python and works(python, "-c", "import pykeepass")), None)


def from_packages(missing):
    """Install Debian's packages, and answer whether that went well."""
    commands = ["update", "-q"], ["install", "-y", "-q", *missing]
    return all(subprocess.run(["apt-get", *words], stdout=sys.stderr).returncode == 0 for words in commands)


def install():
    """From Debian's packages, with apt-get (so as root), what is missing: pykeepass where that can be done."""
    missing = [] if shutil.which("keepassxc-cli") else ["keepassxc"]
    missing += [] if works("perl", "-MFile::KDBX", "-e1") else ["libfile-kdbx-perl"]
    if missing and not from_packages(missing):
        raise SystemExit(f"not installed: {', '.join(missing)}")
    if python_with_pykeepass() is None and shutil.which("apt-get"):
        from_packages(["python3-pykeepass"])


@functools.cache
def pykeepass_python():
    """The python3 that has pykeepass, asked for once it is installed where it can be."""
    return python_with_pykeepass()


def opens_pykeepass(credentials):
    """Whether pykeepass is there and opens vaults with such credentials."""
    return pykeepass_python() is not None and credentials.password != ""


def versions():
    def said(*words):
        return subprocess.run(words, capture_output=True, text=True, check=True).stdout.strip()

    perl = said("perl", "-MFile::KDBX", "-e", "print File::KDBX->VERSION")
    found = f"KeePassXC {said('keepassxc-cli', '--version')}, File::KDBX {perl}"
    if pykeepass_python() is None:
        return f"{found}\npykeepass is not installed: its rows are left out"
    python = said(pykeepass_python(), "-c", "import pykeepass; print(pykeepass.__version__)")
    return f"{found}, pykeepass {python}"


def run(words, given):
    ended = subprocess.run(words, input=given, capture_output=True, env=ENVIRONMENT)
    if ended.returncode != 0:
        # Prompts stand there too, in lines of their own.
        said = ended.stderr.decode().strip().splitlines() or ["no message"]
        raise Failed(f"{words[0]} {words[1]}: {said[-1]}")
    return ended.stdout


def lines(*texts):
    return "".join(f"{text}\n" for text in texts if text is not None).encode()


def keepassxc(command, path, credentials, *arguments, options=(), answers=()):
    """What a command of keepassxc-cli on a vault writes; `answers` are those to its prompts behind the password's."""
    words = ["keepassxc-cli", command, *options]
    words += ["--no-password"] if credentials.password is None else []
    words += ["--key-file", credentials.key_file] if credentials.key_file is not None else []
    return run([*words, path, *arguments], lines(credentials.password, *answers))


def create(path, password):
    """A new vault of KeePassXC."""
    run(["keepassxc-cli", "db-create", "--set-password", path], lines(password, password))


def set_credentials(path, before, after):
    """Have KeePassXC give a vault with a password other credentials."""
    if after.password is None:
        options, answers = ["--unset-password"], ()
    else:
        # It asks whether an empty one is meant, and for any other once more.
        options, answers = ["--set-password"], (after.password, after.password or "y")
    options += ["--set-key-file", after.key_file] if after.key_file is not None else []
    keepassxc("db-edit", path, before, options=options, answers=answers)


def exported(path, credentials):
    """The document that KeePassXC exports of a vault."""
    return keepassxc("export", path, credentials, options=["--format", "xml"])


def shown(path, credentials, entry, name):
    """A string of an entry, as KeePassXC shows it: in clear where it is protected, and with a line feed behind."""
    text = keepassxc("show", path, credentials, entry, options=["--show-protected", "--attributes", name])
    return text.decode().removesuffix("\n")


def attachment(path, credentials, entry, name):
    """An attachment's bytes, as KeePassXC exports them: to a file, since --stdout takes them for text."""
    with tempfile.TemporaryDirectory() as folder:
        copy = pathlib.Path(folder) / "attachment"
        keepassxc("attachment-export", path, credentials, entry, name, copy)
        return copy.read_bytes()


def hexadecimal(value):
    return value.hex() if isinstance(value, bytes) else value


def by_json(words, path, credentials, asked):
    """What a script answers to a request about a vault."""
    password = None if credentials.password is None else credentials.password.encode()
    asked |= {"path": str(path), "password": password, "key_file": credentials.key_file and str(credentials.key_file)}
    return json.loads(run(words, json.dumps(asked, default=hexadecimal).encode()))


def perl(mode, path, credentials, **asked):
    """What file_kdbx.pl answers."""
    return by_json(["perl", PERL, mode], path, credentials, asked)


def pykeepass(mode, path, credentials, **asked):
    """What py_keepass.py answers."""
    return by_json([pykeepass_python(), PYKEEPASS, mode], path, credentials, asked)

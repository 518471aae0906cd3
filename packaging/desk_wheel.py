"""Makes the wheel of the command desk for pip, with nothing but Python's own library: the package, librl.so beside it, and what pip reads of both."""
import base64
import hashlib
import os
import subprocess
import zipfile

TOP = os.path.dirname(os.path.dirname(os.path.abspath(__file__)))
TAG = 'py3-none-linux_x86_64'


class UnsupportedOperation(Exception):
    """What pip knows as a thing that a backend does not make."""


def read(path):
    """The bytes of a file of the repository."""
    with open(os.path.join(TOP, path), 'rb') as file:
        return file.read()


def version():
    """The version of library, program and command."""
    return read('VERSION').decode().strip()


def notes():
    """What pip reads: the metadata, the tag and the command, by path in the wheel."""
    folder = f'rl_desk-{version()}.dist-info'
    return {
        f'{folder}/METADATA': f'Metadata-Version: 2.1\nName: rl-desk\nVersion: {version()}\nSummary: A desk over a proved rule engine for a dialect dictionary\nRequires-Python: >=3.9\n',
        f'{folder}/WHEEL': f'Wheel-Version: 1.0\nGenerator: desk_wheel {version()}\nRoot-Is-Purelib: false\nTag: {TAG}\n',
        f'{folder}/entry_points.txt': '[console_scripts]\ndesk = desk.cli:main\n',
    }


def write(folder, files):
    """Writes a wheel of some files, their list with sums among them, and gives its name; the same files make the same bytes."""
    name = f'rl_desk-{version()}-{TAG}.whl'
    listed = f'rl_desk-{version()}.dist-info/RECORD'
    lines = []
    with zipfile.ZipFile(os.path.join(folder, name), 'w', zipfile.ZIP_DEFLATED) as wheel:
        for path, content in files.items():
            content = content if isinstance(content, bytes) else content.encode()
            total = base64.urlsafe_b64encode(hashlib.sha256(content).digest()).rstrip(b'=').decode()
            lines.append(f'{path},sha256={total},{len(content)}\n')
            put(wheel, path, content)
        put(wheel, listed, ''.join(lines) + f'{listed},,\n')
    return name


def put(wheel, path, content):
    """Puts a file into a wheel with mode 644 and the first time that a zip file can have."""
    entry = zipfile.ZipInfo(path)
    entry.external_attr = 0o100644 << 16
    entry.compress_type = zipfile.ZIP_DEFLATED
    wheel.writestr(entry, content)


def build():
    """Sees to it that the library is made."""
    subprocess.run([os.path.join(TOP, 'build')], check=True)


def build_wheel(wheel_directory, config_settings=None, metadata_directory=None):
    """The wheel with the package and the library in it."""
    build()
    modules = sorted(name for name in os.listdir(os.path.join(TOP, 'desk')) if name.endswith('.py'))
    files = {f'desk/{name}': read(f'desk/{name}') for name in modules}
    files['desk/librl.so'] = read(f'target/lib/librl.so.{version()}')
    return write(wheel_directory, {**files, **notes()})


def build_editable(wheel_directory, config_settings=None, metadata_directory=None):
    """The wheel that names the repository, whose package and library are then used where they are."""
    build()
    return write(wheel_directory, {'rl_desk.pth': TOP + '\n', **notes()})


def build_sdist(sdist_directory, config_settings=None):
    """There is no archive of sources: the library is proved in the repository."""
    raise UnsupportedOperation('a wheel is made from the repository, and no archive of sources')

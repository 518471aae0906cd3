#!/usr/bin/env python3
"""The installed copy: its files, versions and symbols, programs in C, C++ and Rust that are built against it alone, what rl.h says of null, threads and stack, the command desk, and that --uninstall leaves nothing.

  tests/installed.py   needs what ./build needs, and cc, c++, rustc, cargo; exit status 1 where a test fails
"""
import base64
import hashlib
import os
import re
import shutil
import stat
import subprocess
import sys
import tempfile
import unittest
import zipfile

TOP = os.path.dirname(os.path.dirname(os.path.abspath(__file__)))
sys.path.append(os.path.join(TOP, 'packaging'))

import desk_wheel
from entry_points import ENTRY_POINTS

DIALECT = os.path.join(TOP, 'examples/dialect')
WARNINGS = ['-O2', '-Wall', '-Wextra', '-Wpedantic', '-Werror']

# Where all is installed: below a DESTDIR with PREFIX /usr, and below a PREFIX alone.
ROOM = tempfile.TemporaryDirectory()
DEST = os.path.join(ROOM.name, 'dest')
PREFIX = os.path.join(ROOM.name, 'plain')


def run(*words, folder=ROOM.name, **added):
    """What a command prints; it is to end with exit status 0, and else what it printed is shown."""
    done = subprocess.run(words, cwd=folder, env=dict(os.environ, **added), stdout=subprocess.PIPE, stderr=subprocess.STDOUT, text=True)
    if done.returncode != 0:
        raise AssertionError(f'{" ".join(words)} ended with {done.returncode}\n{done.stdout}')
    return done.stdout


def install(*words):
    """Installs, or removes, with a umask that would let nobody else read."""
    return run('sh', '-c', 'umask 077 && exec "$0" "$@"', os.path.join(TOP, 'install'), *words, PREFIX='', DESTDIR='')


def text(*path):
    """The text of a file."""
    with open(os.path.join(*path), encoding='utf-8') as file:
        return file.read()


def version():
    """The version that all places are held to."""
    return text(TOP, 'VERSION').strip()


def flags(kind):
    """The flags of rl.pc by pkg-config, or read by hand where there is none."""
    if shutil.which('pkg-config'):
        return run('pkg-config', f'--{kind}', 'rl', PKG_CONFIG_PATH=os.path.join(PREFIX, 'lib/pkgconfig')).split()
    lines = text(PREFIX, 'lib/pkgconfig/rl.pc').splitlines()
    named = dict(line.split('=', 1) for line in lines if re.match(r'\w+=', line))
    value = next(line.split(':', 1)[1] for line in lines if line.lower().startswith(kind + ':'))
    while '${' in value:
        value = re.sub(r'\$\{(\w+)\}', lambda found: named[found[1]], value)
    return value.split()


def compiled(compiler, name, source, warnings=WARNINGS):
    """A program built with the flags of rl.pc and the library in it; its object stays beside it."""
    out = os.path.join(ROOM.name, name)
    run(*compiler, *warnings, *flags('cflags'), '-c', os.path.join(TOP, source), '-o', out + '.o')
    run(compiler[0], '-Wl,-z,now', out + '.o', '-o', out, '-Wl,-Bstatic', *flags('libs'), '-Wl,-Bdynamic', '-lpthread')
    return out


def needed(path):
    """The shared libraries that a file names."""
    return re.findall(r'\(NEEDED\).*\[(.*)\]', run('readelf', '-d', path))


def setUpModule():
    """Installs in both ways."""
    install(f'DESTDIR={DEST}', 'PREFIX=/usr')
    install(f'PREFIX={PREFIX}')


def tearDownModule():
    """Removes what was made."""
    ROOM.cleanup()


class Files(unittest.TestCase):
    """What lies where, and what it says."""

    def expected(self):
        """The modes of all that is installed, by path."""
        modes = {
            'include/rl.h': 0o644,
            'lib/librl.a': 0o644,
            f'lib/librl.so.{version()}': 0o755,
            'lib/pkgconfig/rl.pc': 0o644,
            'share/rl/rust/Cargo.toml': 0o644,
            'share/rl/rust/build.rs': 0o644,
            'share/rl/rust/src/lib.rs': 0o644,
            'share/rl/rust/src/raw.rs': 0o644,
            'share/rl/installed': 0o644,
            'bin/rl': 0o755,
            'bin/desk': 0o755,
        }
        return {**modes, **{f'share/rl/desk/{name}': 0o644 for name in os.listdir(os.path.join(TOP, 'desk')) if name.endswith('.py')}}

    def test_list_and_modes(self):
        """Both ways have exactly these files with these modes, and two links."""
        for top in os.path.join(DEST, 'usr'), PREFIX:
            modes, links = {}, {}
            for folder, folders, names in os.walk(top):
                for name in folders:
                    self.assertEqual(stat.S_IMODE(os.lstat(os.path.join(folder, name)).st_mode), 0o755, name)
                for name in names:
                    path = os.path.join(folder, name)
                    if os.path.islink(path):
                        links[os.path.relpath(path, top)] = os.readlink(path)
                    else:
                        modes[os.path.relpath(path, top)] = stat.S_IMODE(os.lstat(path).st_mode)
            self.assertEqual(modes, self.expected())
            soname = f'librl.so.{version().split(".")[0]}'
            self.assertEqual(links, {'lib/librl.so': soname, f'lib/{soname}': f'librl.so.{version()}'})

    def test_paths(self):
        """No file names a folder of this machine but PREFIX, which rl.pc and the list alone have."""
        for top, prefix in (os.path.join(DEST, 'usr'), None), (PREFIX, PREFIX):
            for path in self.expected():
                with open(os.path.join(top, path), 'rb') as file:
                    content = file.read()
                for folder in TOP, ROOM.name, os.path.expanduser('~'):
                    own = prefix and path in ('lib/pkgconfig/rl.pc', 'share/rl/installed') and folder == ROOM.name
                    self.assertTrue(own or folder.encode() not in content, f'{path} has {folder}')
        self.assertIn('prefix=/usr\n', text(DEST, 'usr/lib/pkgconfig/rl.pc'))

    def test_versions(self):
        """Every place of the version has that of VERSION."""
        major, minor, patch = version().split('.')
        header = text(PREFIX, 'include/rl.h')
        for name, value in ('MAJOR', major), ('MINOR', minor), ('PATCH', patch):
            self.assertIn(f'#define RL_VERSION_{name} {value}\n', header)
        self.assertIn(f'#define RL_VERSION "{version()}"\n', header)
        self.assertEqual(flags('modversion') if shutil.which('pkg-config') else flags('version'), [version()])
        self.assertIn(f'\nversion = "{version()}"\n', text(PREFIX, 'share/rl/rust/Cargo.toml'))
        self.assertEqual(run(os.path.join(PREFIX, 'bin/desk'), '--version'), f'desk {version()}\n')
        self.assertIn(f'[librl.so.{major}]', run('readelf', '-d', os.path.join(PREFIX, f'lib/librl.so.{version()}')))

    def test_shared(self):
        """librl.so shows the entry points and nothing else, is bound at the start, and its stack and what is read alone are so."""
        path = os.path.join(PREFIX, 'lib/librl.so')
        shown = [line.split()[-1] for line in run('nm', '-D', '--defined-only', path).splitlines()]
        self.assertEqual(sorted(shown), sorted(ENTRY_POINTS['library']))
        self.assertIn('BIND_NOW', run('readelf', '-d', path))
        heads = run('readelf', '-lW', path)
        self.assertRegex(heads, r'GNU_STACK .* RW +0x')
        self.assertIn('GNU_RELRO', heads)
        self.assertNotIn('TEXTREL', run('readelf', '-d', path))

    def test_archive(self):
        """librl.a needs no more from outside than docs/REFERENCE.md says."""
        listed = run('nm', '-u', os.path.join(PREFIX, 'lib/librl.a')).splitlines()
        self.assertEqual(sorted({line.split()[-1] for line in listed if ' U ' in line}), ['memcpy', 'memset'])

    def test_refusals(self):
        """The numbers of the enum, and those with words in Rust, are those of docs/REFERENCE.md."""
        section = text(TOP, 'docs/REFERENCE.md').split('\n## Refusals by who can cause them\n')[1].split('\n## ')[0]
        numbers = sorted(re.findall(r'^\| (\d+) \|', section, re.M))
        self.assertEqual(len(numbers), 27)
        listed = re.findall(r'^    RL_\w+ = (\d+),?$', text(PREFIX, 'include/rl.h'), re.M)
        self.assertEqual(sorted(listed), sorted(['0', *numbers]))
        self.assertEqual(sorted(re.findall(r'^            (\d+) => "', text(PREFIX, 'share/rl/rust/src/raw.rs'), re.M)), numbers)

    def test_again(self):
        """A second install gives each file anew, so that an open one stays as it is, and removes what no longer belongs to it."""
        prefix = os.path.join(ROOM.name, 'again')
        install(f'PREFIX={prefix}')
        path, stray = os.path.join(prefix, 'lib', f'librl.so.{version()}'), os.path.join(prefix, 'share/rl/desk/stray.py')
        shutil.copy(path, stray)
        with open(os.path.join(prefix, 'share/rl/installed'), 'a', encoding='utf-8') as file:
            file.write(stray + '\n')
        with open(path, 'rb') as held:
            install(f'PREFIX={prefix}')
            self.assertNotEqual(os.fstat(held.fileno()).st_ino, os.stat(path).st_ino)
        self.assertFalse(os.path.exists(stray))
        self.assertNotIn('stray', text(prefix, 'share/rl/installed'))

    def test_uninstall(self):
        """--uninstall leaves nothing of ours and all that is not ours."""
        dest = os.path.join(ROOM.name, 'bare')
        os.mkdir(dest)
        for prefix in '/usr', '/a place/of its own':
            install(f'DESTDIR={dest}', f'PREFIX={prefix}')
            install(f'DESTDIR={dest}', f'PREFIX={prefix}')
            run(dest + prefix + '/bin/desk', 'check', os.path.join(DIALECT, 'rules.txt'))
            install(f'DESTDIR={dest}', f'PREFIX={prefix}', '--uninstall')
            self.assertEqual(os.listdir(dest), [])
        os.makedirs(os.path.join(dest, 'usr/lib'))
        other = os.path.join(dest, 'usr/share/other')
        install(f'DESTDIR={dest}', 'PREFIX=/usr')
        with open(other, 'w', encoding='utf-8'):
            pass
        install(f'DESTDIR={dest}', 'PREFIX=/usr', '--uninstall')
        left = [os.path.join(folder, name) for folder, folders, names in os.walk(dest) for name in folders + names]
        self.assertEqual(sorted(left), sorted(os.path.join(dest, path) for path in ('usr', 'usr/lib', 'usr/share', 'usr/share/other')))
        with self.assertRaises(AssertionError):
            install(f'DESTDIR={dest}', 'PREFIX=/usr', '--uninstall')


class Programs(unittest.TestCase):
    """Programs that are built against the installed copy."""

    def expect_desk(self, *words, **added):
        """A desk prints what is stored, by strata and by marks."""
        for more in [], ['marks']:
            self.assertEqual(run(*words, DIALECT, *more, **added), text(DIALECT, 'desk.txt'))

    def test_c_and_cpp(self):
        """The desks in C and C++, with the library in them and beside them."""
        for name, compiler, source in (
            ('c', ['cc', '-std=c11'], 'examples/c/desk.c'),
            ('cpp', ['c++', '-std=c++17'], 'examples/cpp/desk.cpp'),
        ):
            alone, beside = compiled(compiler, f'{name}-static', source), os.path.join(ROOM.name, f'{name}-shared')
            self.assertNotIn('librl', str(needed(alone)))
            self.expect_desk(alone)
            run(compiler[0], alone + '.o', '-o', beside, *flags('libs'))
            self.assertIn(f'librl.so.{version().split(".")[0]}', needed(beside))
            self.expect_desk(beside, LD_LIBRARY_PATH=os.path.join(PREFIX, 'lib'))

    def test_header(self):
        """rl.h alone is C11 and C++17 for each compiler that is there, with more warnings than ours."""
        source = os.path.join(ROOM.name, 'alone.c')
        with open(source, 'w', encoding='utf-8') as file:
            file.write('#include <rl.h>\n')
        for compiler, language in ('gcc', 'c'), ('clang', 'c'), ('g++', 'c++'), ('clang++', 'c++'):
            if shutil.which(compiler):
                standard = {'c': '-std=c11', 'c++': '-std=c++17'}[language]
                run(compiler, standard, *WARNINGS, '-Wconversion', '-Wshadow', '-Wcast-qual', *flags('cflags'), '-fsyntax-only', '-x', language, source)

    def test_null(self):
        """Null with length 0 gives what rl.h says, in C and in C++."""
        for name, compiler in ('null-c', ['cc', '-std=c11']), ('null-cpp', ['c++', '-std=c++17', '-x', 'c++']):
            self.assertEqual(run(compiled(compiler, name, 'tests/embed/null.c')), '')

    def test_threads(self):
        """Many threads at once come to what one comes to."""
        self.assertEqual(run(compiled(['cc', '-std=c11'], 'threads', 'tests/embed/threads.c')), '')

    def test_stack(self):
        """The stack that bench/stack.c measures here is what rl.h says of each function, within 64 bytes, by which the compilers of callers differ."""
        lines = run(compiled(['cc'], 'stack', 'bench/stack.c', warnings=['-O2'])).splitlines()
        most = {}
        for name, *figures in re.findall(r'^\| (rl_\w+).*?\| +(\d+) \| +(\d+) \|$', '\n'.join(lines), re.M):
            most[name] = max(most.get(name, 0), *map(int, figures))
        said = re.findall(r'Stack: ([\d,]+) bytes\. \*/\n\w+ (rl_\w+)\(', text(PREFIX, 'include/rl.h'))
        self.assertEqual([name for _, name in said], ENTRY_POINTS['library'])
        for figure, name in said:
            self.assertLessEqual(abs(int(figure.replace(',', '')) - most[name]), 64, f'{name}: rl.h has {figure}, measured {most[name]}')

    def test_rust(self):
        """The desk in Rust over the installed crate, by rustc and by cargo."""
        sources = os.path.join(ROOM.name, 'rust/src')
        crate = os.path.join(PREFIX, 'share/rl/rust')
        os.makedirs(sources)
        shutil.copy(os.path.join(TOP, 'examples/rust/folder.rs'), sources)
        main = text(TOP, 'examples/rust/desk.rs')
        self.assertIn('\nmod rl;\n', main)
        with open(os.path.join(sources, 'main.rs'), 'w', encoding='utf-8') as file:
            file.write(main.replace('\nmod rl;\n', '\nextern crate rl;\n'))
        rustc = ['rustc', '-O', '--edition', '2021', '--deny', 'warnings', '-L', f'native={PREFIX}/lib', '--out-dir', ROOM.name]
        run(*rustc, '--crate-type', 'rlib', '--crate-name', 'rl', f'{crate}/src/lib.rs')
        run(*rustc, '--crate-name', 'desk', '--extern', f'rl={ROOM.name}/librl.rlib', f'{sources}/main.rs')
        self.expect_desk(os.path.join(ROOM.name, 'desk'))
        with open(os.path.join(ROOM.name, 'rust/Cargo.toml'), 'w', encoding='utf-8') as file:
            file.write(f'[package]\nname = "desk"\nversion = "0.0.0"\nedition = "2021"\n[dependencies]\nrl = {{ path = "{crate}" }}\n[workspace]\n')
        run('cargo', 'build', '--offline', '--quiet', folder=os.path.join(ROOM.name, 'rust'), CARGO_TARGET_DIR=os.path.join(ROOM.name, 'cargo'), RUSTFLAGS='--deny warnings')
        self.expect_desk(os.path.join(ROOM.name, 'cargo/debug/desk'))

    def test_rust_traits(self):
        """A refusal is an error that says itself, and forms have their Debug and Default."""
        source = os.path.join(ROOM.name, 'traits.rs')
        with open(source, 'w', encoding='utf-8') as file:
            file.write('''extern crate rl;
fn run() -> Result<(), Box<dyn std::error::Error>> {
    println!("{:?}", rl::Change::default());
    assert_eq!(rl::Card::default(), rl::Card { values: [0; rl::SLOTS], count: 0 });
    assert_eq!(rl::Slip::default(), rl::Slip { changes: [rl::Change::default(); rl::SLOTS], count: 0 });
    assert_eq!(*rl::read(b"")?, rl::Table::default());
    rl::read(b"SLOT x {0}; SLOT")?;
    Ok(())
}
fn main() {
    println!("{}", run().unwrap_err());
}
''')
        rustc = ['rustc', '--edition', '2021', '--deny', 'warnings', '-L', f'native={PREFIX}/lib', '--out-dir', os.path.join(ROOM.name, 'traits')]
        run(*rustc, '--crate-type', 'rlib', '--crate-name', 'rl', f'{PREFIX}/share/rl/rust/src/lib.rs')
        run(*rustc, '--extern', f'rl={ROOM.name}/traits/librl.rlib', source)
        self.assertEqual(run(os.path.join(ROOM.name, 'traits/traits')), 'Change { slot: 0, value: 0 }\nrefused 12 0: a token out of place, or the text ends inside a statement\n')

    def test_program(self):
        """The installed program answers as the one in the repository."""
        self.assertEqual(run(os.path.join(PREFIX, 'bin/rl'), folder=DIALECT), text(DIALECT, 'expected'))


class Desk(unittest.TestCase):
    """The command desk, installed and from a wheel."""

    def expect_check(self, *words, **added):
        """The command finds its library and reads the rules of the dialect dictionary."""
        self.assertIn(' 9 rules', run(*words, 'check', os.path.join(DIALECT, 'rules.txt'), **added))

    def wheel(self):
        """The wheel as pip's backend makes it."""
        name = desk_wheel.build_wheel(ROOM.name)
        self.assertEqual(name, f'rl_desk-{version()}-py3-none-linux_x86_64.whl')
        return os.path.join(ROOM.name, name)

    def test_installed(self):
        """The installed command runs, by a link too."""
        link = os.path.join(ROOM.name, 'linked')
        os.symlink(os.path.join(PREFIX, 'bin/desk'), link)
        for path in os.path.join(PREFIX, 'bin/desk'), link:
            self.expect_check(path, PYTHONDONTWRITEBYTECODE='1')

    def test_wheel(self):
        """The wheel has the modules, the library and sums that are right, and the package in it runs."""
        folder = os.path.join(ROOM.name, 'unzipped')
        with zipfile.ZipFile(self.wheel()) as wheel:
            wheel.extractall(folder)
            names = wheel.namelist()
        with open(os.path.join(folder, 'desk/librl.so'), 'rb') as own, open(os.path.join(PREFIX, 'lib/librl.so'), 'rb') as installed:
            self.assertEqual(own.read(), installed.read())
        notes = f'rl_desk-{version()}.dist-info'
        lines = [line.split(',') for line in text(folder, notes, 'RECORD').splitlines()]
        self.assertEqual([path for path, _, _ in lines], names)
        for path, total, size in lines[:-1]:
            with open(os.path.join(folder, path), 'rb') as file:
                content = file.read()
            self.assertEqual(total, 'sha256=' + base64.urlsafe_b64encode(hashlib.sha256(content).digest()).rstrip(b'=').decode())
            self.assertEqual(int(size), len(content))
        self.assertIn(f'\nVersion: {version()}\n', text(folder, notes, 'METADATA'))
        self.expect_check(sys.executable, '-m', 'desk', PYTHONPATH=folder)

    def test_pip(self):
        """pip installs the command into an environment of its own, from the repository and without a network."""
        place = os.path.join(ROOM.name, 'venv')
        pip = [sys.executable, '-m', 'pip', '--python', os.path.join(place, 'bin/python'), '--disable-pip-version-check']
        run(sys.executable, '-m', 'venv', '--without-pip', place)
        if subprocess.run([*pip, '--version'], stdout=subprocess.DEVNULL, stderr=subprocess.DEVNULL).returncode != 0:
            self.skipTest('python3 has no pip here, or one before 22.3; of the wheel only the files were tried')
        run(*pip, 'install', '--quiet', '--no-index', TOP)
        self.expect_check(os.path.join(place, 'bin/desk'))


if __name__ == '__main__':
    unittest.main()

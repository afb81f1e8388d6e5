"""A clean clone of the repository with the files of the work tree, in which bin/xhcitrace runs the program under test."""
import os, shutil, subprocess

TOP = os.path.dirname(os.path.dirname(os.path.abspath(__file__)))


def output(words, folder=TOP):
    return subprocess.run(words, cwd=folder, capture_output=True, text=True, check=True).stdout


def names(*words):
    return [name for name in output(['git', *words, '-z']).split('\0') if name]


def take_work_tree(folder):
    """What is changed, new or gone in the work tree is so in the clone; what git ignores is left out."""
    for name in {*names('diff', '--name-only', 'HEAD'), *names('ls-files', '--others', '--exclude-standard')}:
        here, there = os.path.join(TOP, name), os.path.join(folder, name)
        if os.path.lexists(there):
            os.remove(there)
        if os.path.lexists(here):
            os.makedirs(os.path.dirname(there), exist_ok=True)
            shutil.copy2(here, there)


def tell(folder):
    """dist/README has the digests of the sources and of the program as they are there."""
    sources = output(['tools/sources_digest'], folder).strip()
    program = output(['sha256sum', 'dist/xhcitrace'], folder).split()[0]
    with open(os.path.join(folder, 'dist', 'README'), 'w') as file:
        file.write(f'sources: {sources}\nprogram: {program}\n')


def ship(folder, program):
    """dist/ has this program, as the one of these sources."""
    shipped = os.path.join(folder, 'dist', 'xhcitrace')
    os.makedirs(os.path.dirname(shipped), exist_ok=True)
    if os.path.exists(shipped):
        os.remove(shipped)
    shutil.copy2(program, shipped)
    tell(folder)


def commit(folder):
    author = ['-c', 'user.name=test', '-c', 'user.email=test@localhost', '-c', 'commit.gpgsign=false']
    output(['git', 'add', '-A'], folder)
    output(['git', *author, 'commit', '-q', '--allow-empty', '--no-verify', '-m', 'as in the work tree'], folder)


def make(folder, program):
    output(['git', 'clone', '-q', '--no-hardlinks', TOP, folder])
    take_work_tree(folder)
    ship(folder, program)
    commit(folder)

"""What the tools that compile a proved crate share: for each processor the static library that the toolchain builds of the crate, and what it
hands to its compiler last, with the arguments. Both are kept for as long as the crate's proof is the one that they were made of."""
import os, platform, shlex, shutil, subprocess, sys, tempfile

MACHINE = platform.machine()

# More functions are compiled into their callers than by default. At 1000 the run of a short list takes 2 KB more stack.
INLINING = ['-mllvm', '-inline-threshold=2000']

# For each processor what the toolchain's build is told besides: the code for x86-64 runs on every such processor.
PROCESSORS = {
    'x86_64': ['--cpu', 'x86-64'],
    'aarch64': [],
}


def stop(why):
    sys.exit('%s: %s' % (os.path.basename(sys.argv[0]), why))


def root():
    """The folder that has crates.txt: the one that the tool is run in, or one above it."""
    folder = os.getcwd()
    while not os.path.exists(os.path.join(folder, 'crates.txt')):
        if folder == '/':
            stop('no crates.txt in this folder or above it')
        folder = os.path.dirname(folder)
    return folder


def libraries(top):
    """Each crate of crates.txt with those that it builds on."""
    found = {}
    for line in text_of(os.path.join(top, 'crates.txt')).splitlines():
        name, colon, others = line.split('#')[0].partition(':')
        if colon:
            found[name.split()[0]] = others.split()
    return found


def below(found, crate):
    """All crates that a crate builds on, whether or not directly."""
    reached = []
    for name in found[crate]:
        reached += [it for it in [*below(found, name), name] if it not in reached]
    return reached


def run(words, folder, what):
    try:
        done = subprocess.run(words, cwd=folder, stdout=subprocess.PIPE, stderr=subprocess.STDOUT, text=True)
    except OSError as error:
        stop('%s failed: %s' % (what, error))
    if done.returncode != 0:
        sys.stderr.write(done.stdout)
        stop('%s failed' % what)
    return done.stdout


def text_of(path):
    with open(path, encoding='utf-8') as file:
        return file.read()


def kit():
    """The folder of the toolchain that is on the PATH."""
    return os.path.dirname(run(['rt', 'doc'], None, '`rt doc`').strip())


def prove(top, crate):
    """Proves the crate with all that it builds on; what is proved already and hasn't changed is not proved again."""
    if crate not in libraries(top):
        stop('crates.txt does not list ' + crate)
    run(['rt', 'check'], os.path.join(top, 'crates', crate), '`rt check` of ' + crate)


def prove_all(top):
    """Proves every crate of crates.txt; what is proved already and hasn't changed is not proved again."""
    run(['rt', 'all', 'check'], top, '`rt all check`')


def toolchain_that_tells(whole, room):
    """A copy of the toolchain's folder whose compiler inlines more, and leaves its last input and arguments in room."""
    os.makedirs(room + '/bin')
    for tool in os.listdir(whole + '/toolchain/bin'):
        os.symlink(os.path.join(whole, 'toolchain', 'bin', tool), os.path.join(room, 'bin', tool))
    os.symlink(whole + '/toolchain/lib', room + '/lib')
    os.remove(room + '/bin/clang')
    with open(room + '/bin/clang', 'w') as script:
        script.write('#!/bin/sh\nroom=%s\nprintf "%%s\\n" "$@" %s >"$room/arguments"\n'
                     'for a in "$@"; do case $a in *.bc|*.ll) [ ! -f "$a" ] || cp "$a" "$room/input" ;; esac; done\n'
                     'exec %s "$@" %s\n' % (shlex.quote(room), shlex.join(INLINING), shlex.quote(whole + '/toolchain/bin/clang'), shlex.join(INLINING)))
    os.chmod(room + '/bin/clang', 0o755)


def build(top, crate, processor, folder):
    """The toolchain's build of a proved crate as a static library: folder/library.a, and what its compiler was handed."""
    with tempfile.TemporaryDirectory() as room:
        build_with(kit(), room, top, crate, processor, folder)
        for name in ('arguments', 'input'):
            shutil.copy(os.path.join(room, name), os.path.join(folder, name))


def build_with(whole, room, top, crate, processor, folder):
    found = libraries(top)
    toolchain_that_tells(whole, room)
    words = [whole + '/bin/rattle', 'build', '--crate-name', crate, 'src/lib.rt', '--extern', 'std=%s/rlibs/std.rlib' % whole, '-L', 'dependency=%s/rlibs' % whole]
    for name in below(found, crate):
        if name in found:
            rlibs = os.path.join(top, 'crates', name, 'out', 'rlib')
            words += ['-L', 'dependency=' + rlibs] + (['--extern', '%s=%s/%s.rlib' % (name, rlibs, name)] if name in found[crate] else [])
    words += ['--antt-project', whole + '/rattle/logic/antt-project.json', '--logic-built', whole + '/logic_built', '--incremental', os.path.join(folder, 'checked'),
              '--toolchain', room, '--backend', 'llvm', '--crate-type', 'staticlib', '--target', processor + '-unknown-linux-gnu', *PROCESSORS[processor],
              '-o', folder + '/library.a']
    run(words, os.path.join(top, 'crates', crate), 'building crate %s for %s' % (crate, processor))


def kept(top, crate, processor):
    """The folder of target/native that has the build of a proved crate for a processor, made anew where its proof is another one."""
    made_of = run(['sh', 'tools/fresh', 'digest'], top, '`tools/fresh digest`') + run(['rt', 'version'], top, '`rt version`') + ' '.join(INLINING + PROCESSORS[processor])
    folder = os.path.join(top, 'target', 'native', crate, processor)
    stamp = os.path.join(folder, 'stamp')
    if not (os.path.exists(stamp) and text_of(stamp) == made_of):
        if os.path.exists(stamp):
            os.remove(stamp)
        os.makedirs(folder, exist_ok=True)
        build(top, crate, processor, folder)
        with open(stamp, 'w') as file:
            file.write(made_of)
    return folder


def flags(folder):
    """The arguments that the toolchain's compiler was given last, without the names of files and folders."""
    said, skip = [], False
    for word in text_of(os.path.join(folder, 'arguments')).splitlines():
        if not skip and word != '-c' and not word.startswith('--sysroot=') and not word.endswith(('.bc', '.ll')) and word != '-o':
            said.append(word)
        skip = word == '-o'
    return said


def compiled(folder, out, *more):
    """Compiles what the toolchain's compiler was handed last, by the same compiler with the same arguments and more: `-c` or `-S` is among these."""
    folder, out = os.path.abspath(folder), os.path.abspath(out)
    words = flags(folder)
    at = words.index('ir') + 1
    run([kit() + '/toolchain/bin/clang', *words[:at], os.path.join(folder, 'input'), '-o', out, *words[at:], *more], folder, 'compiling the module')

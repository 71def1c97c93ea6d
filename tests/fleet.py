#!/usr/bin/env python3
"""fleet.py KIND FOLDER LINES COMMAND...: tries the scripts of fleet/ on some hundred traces.

COMMAND runs the console. FOLDER holds traces, honest and damaged, and LINES what the console says of each; KIND is not asked for.
A month is judged on this machine, on "machines" that are an sshd of our own on the loopback, and by a Slurm of our own, all as
ordinary processes below a temporary folder. Whichever way, it has to give what one console gives that judges it alone; and what
fails has to be told, and counted as nothing. Ends with `N passed, M failed`.
"""
import contextlib
import getpass
import json
import os
import signal
import socket
import subprocess
import sys
import tempfile

sys.dont_write_bytecode = True
from runs import Runs, comes_true, read, write  # noqa: E402

FOLDER, LINES, COMMAND = os.path.abspath(sys.argv[2]), os.path.abspath(sys.argv[3]), sys.argv[4:]
FLEET = os.path.join(os.path.dirname(os.path.dirname(os.path.abspath(__file__))), 'fleet')
MOST = 2**32 - 1
TRACES = 300
LOTS = 7
runs = Runs(COMMAND)
expect = runs.expect
os.environ['ASAN_OPTIONS'] = 'detect_leaks=0'


def fleet(script, *arguments, **options):
    """A script of fleet/: its status, what it prints and what it tells."""
    done = subprocess.run([os.path.join(FLEET, script), *map(str, arguments)], capture_output=True, timeout=300, check=False,
                          **options)
    return done.returncode, done.stdout, done.stderr


def listed(names):
    return b''.join(os.fsencode(name) + b'\0' for name in names)


def plan(month, names, lots=LOTS, console='./console'):
    return fleet('month', 'plan', '--console', console, month, lots, input=listed(names))


def is_right(seen, month, names):
    """Whether a month gives what one console gives for all its names."""
    status, counts, told = runs.run('--count', '--files-from', '-', stdin=None, input=listed(names))
    refused = told.count(b'\n')
    told += b'%s: %d traces, %d accepted, %d refused\n' % (os.fsencode(month), len(names), len(names) - refused, refused)
    return seen == (status, counts, told)


def is_trouble(seen, *parts):
    """Whether something is told and nothing counted."""
    return seen[:2] == (2, b'') and all(part in seen[2] for part in parts)


def results(month):
    """What tells of each result whether it was written since."""
    folder = os.path.join(month, 'lots')
    return {name: os.stat(os.path.join(folder, name)).st_ino for name in os.listdir(folder) if name.endswith('.result')}


def make_console(name='console', before=''):
    """The console as one file, as it is installed."""
    command = ' '.join(f"'{word}'" for word in COMMAND)
    os.chmod(write(name, f'#!/bin/sh\n{before}\nexec {command} "$@"\n'.encode()), 0o755)


def some_traces():
    """Names of traces, accepted and refused, and the accepted alone."""
    lines = read(LINES).decode().splitlines()[:TRACES]
    return [line.split(': ')[0] for line in lines], [line.split(': ')[0] for line in lines if ': accepted' in line]


def try_sum():
    full = ''.join(f'{group} {number} {{}}\n' for group in range(1, 5) for number in range(32))
    write('most', full.format(*[MOST - 1] * 128).encode())
    write('ones', full.format(*[1] * 128).encode())
    write('one', b'4 31 1\n')
    write('none', b'')
    expect('sum: of one', fleet('sum', 'one') == (0, b'4 31 1\n', b''))
    expect('sum: as large as can be', fleet('sum', 'most', 'none', 'ones') == (0, full.format(*[MOST] * 128).encode(), b''))
    expect('sum: one that passes it', is_trouble(fleet('sum', 'most', 'ones', 'one'), b'count 4 31 passes 4294967295'))
    expect('sum: of none', is_trouble(fleet('sum', 'none', 'missing'), b'missing') and fleet('sum')[:2] == (2, b''))
    for text in (b'x', b'1 2', b'1 2 3', b'1 2 3 4\n', b'0 2 3\n', b'5 2 3\n', b'1 32 3\n', b'1 2 0\n', b'1 02 3\n', b'1 2 03\n',
                 b'1 2 4294967296\n', b'1 2 -3\n', b'1  2 3\n', b'1 2 3\r\n', b'1 2 3\n\n', b'1 2 3\n1 2 3\n', b'1 3 3\n1 2 3\n',
                 b'1 2 3\x00\n', '1 2 ٣\n'.encode()):
        expect(f'sum: no counts: {text}', is_trouble(fleet('sum', 'one', write('bad', text)), b'sum: bad: line '))


def try_plans():
    names, _ = some_traces()
    expect('plan: made', plan('july', names)[::2] == (0, b''))
    before = sorted(os.listdir('july/lots'))
    expect('plan: one that is there stays', is_trouble(plan('july', names), b'july is there already') and
           sorted(os.listdir('july/lots')) == before)
    for why, words, given in (('no names', b'no names', []), ('an empty name', b'name 2 is no', ['a', '', 'b']),
                              ('standard input', b'name 1 is no', ['-']), ('a name twice', b"'a' is named 2 times", ['a', 'a'])):
        expect(f'plan: {why}', is_trouble(plan('new', given), words))
    expect('plan: no lots', is_trouble(plan('new', names, 0), b'go into 1 to 1000 lots'))
    expect('plan: too many lots', is_trouble(plan('new', map(str, range(1001)), 1001), b'go into 1 to 1000 lots'))
    expect('plan: too many names in a lot', is_trouble(plan('new', map(str, range(65537)), 1), b'go into 2 to 1000 lots'))
    expect('plan: no console', is_trouble(plan('new', names, console='./missing'), b'no program ./missing'))
    expect('plan: nothing is left of those', sorted(os.listdir()) == ['console', 'july'], os.listdir())
    found = fleet('month', 'plan', 'found', 1, input=b'a\nb\n', env={**os.environ, 'PATH': f'{os.getcwd()}:{os.environ["PATH"]}'})
    expect('plan: by lines, and a console on the path', found == (0, b'', b'') and read('found/lots/0001.names') == b'a\0b\0' and
           json.loads(read('found/plan'))['console'] == os.path.abspath('console'), found)


def try_cores():
    names, accepted = some_traces()
    plan('july', names)
    seen = fleet('cores', 'july')
    expect(f'cores: {len(names)} traces, {len(names) - len(accepted)} of them refused', is_right(seen, 'july', names), seen)
    before = results('july')
    expect('cores: again, which judges nothing', fleet('cores', 'july', 1) == seen and results('july') == before)
    plan('june', accepted, 1000)
    seen = fleet('cores', 'june', 3)
    expect('cores: a lot for each trace, all accepted', seen[0] == 0 and is_right(seen, 'june', accepted), seen)
    odd = ['with space', 'with\nline', '-option', b'\xff', 'ä"\'$`\\', '\u2028']
    for name, trace in zip(odd, accepted):
        os.symlink(trace, name)
    plan('odd', odd, 4)
    expect('cores: names of any bytes', is_right(fleet('cores', 'odd'), 'odd', odd))
    usage = [fleet('cores'), fleet('cores', 'july', 'many'), fleet('cores', 'july', 0), fleet('cores', 'august')]
    expect('cores: bad usage', all(is_trouble(seen) for seen in usage), usage)


def try_failures():
    """What fails is told and not counted; once it is mended, what is left is judged and nothing else."""
    names, accepted = some_traces()
    plan('july', [*names, 'late'])
    seen = fleet('cores', 'july')
    expect('a trace that cannot be read', is_trouble(seen, b'console: late: No such file', b'1 of 7 lots are not judged: 7'), seen)
    before = results('july')
    os.symlink(accepted[0], 'late')
    expect('and then can', is_right(fleet('cores', 'july'), 'july', [*names, 'late']))
    expect('judges its lot alone', before.items() < results('july').items())

    make_console('killed', before='[ ! -e ill ] || kill -KILL $$')
    plan('june', names, console='./killed')
    write('ill', b'')
    seen = fleet('cores', 'june')
    expect('consoles that are killed', is_trouble(seen, b'the console was ended by SIGKILL', b'7 of 7 lots are not judged'), seen)
    os.remove('ill')
    expect('and then are not', is_right(fleet('cores', 'june'), 'june', names))
    try_other_consoles(names)


def try_other_consoles(names):
    plan('may', names, console='./killed')
    make_console('killed', before='# changed')
    seen = fleet('cores', 'may')
    expect('another console than the one of the plan', is_trouble(seen, b'is another console than the one of the plan'), seen)
    for number, (why, script) in enumerate({'that says other things': 'echo hello', 'that tells other things': 'echo hello >&2',
                                            'that refuses in silence': 'exit 1', 'that tells and accepts': 'echo "a: refused 8 '
                                            'SHORT at byte 0 after 0 Steps" >&2', 'that fails': 'exit 2'}.items()):
        os.chmod(write('strange', f'#!/bin/sh\ncat >/dev/null\n{script}\n'.encode()), 0o755)
        plan(f'month-{number}', names, 1, console='./strange')
        seen = fleet('cores', f'month-{number}')
        expect(f'a console {why}', is_trouble(seen, b'lots are not judged: 1'), seen)


def try_results():
    """Results that are none."""
    names, _ = some_traces()
    plan('july', names)
    fleet('cores', 'july')
    good = read('july/lots/0003.result')
    other = json.loads(read('july/lots/0004.result'))
    for why, text in {'empty': b'', 'cut': good[:-9], 'of another lot': read('july/lots/0004.result'), 'no object': b'[]',
                      'with no counts': json.dumps({**other, 'counts': '1 2'}).encode(),
                      'with numbers for text': json.dumps({**other, 'counts': 7}).encode(),
                      'with a line that refuses nothing': good.replace(b': refused 1', b': accepted 1')}.items():
        write('july/lots/0003.result', text)
        seen = fleet('month', 'sum', 'july')
        expect(f'a result {why}', text != good and is_trouble(seen, b'july/lots/0003.result'), seen)
    write('july/lots/0003.result', good)
    write('july/plan', read('july/plan').replace(b'"names": %d' % TRACES, b'"names": %d' % (TRACES + 1)))
    expect('a plan with a name more', is_trouble(fleet('month', 'sum', 'july'), b'the lots have 300 names, the plan 301'))
    expect('a lot that is none', is_trouble(fleet('month', 'judge', 'july', LOTS + 1), b'july has lots 1 to 7'))
    expect('a month that is none', is_trouble(fleet('month', 'sum', 'august'), b'august'))


def free_port():
    with socket.socket() as found:
        found.bind(('127.0.0.1', 0))
        return found.getsockname()[1]


def accepts(port):
    with contextlib.suppress(OSError), socket.create_connection(('127.0.0.1', port), 1):
        return True
    return False


@contextlib.contextmanager
def started(*command):
    """A service in the foreground, until it is not needed any more; what it says goes to a file of its name."""
    with open(os.path.basename(command[0]) + '.log', 'wb') as log:
        service = subprocess.Popen(command, stdin=subprocess.DEVNULL, stdout=log, stderr=log)
        try:
            yield
        finally:
            service.send_signal(signal.SIGTERM)
            service.wait(timeout=60)


def ssh_keys():
    for name in ('host', 'user'):
        subprocess.run(['ssh-keygen', '-q', '-t', 'ed25519', '-N', '', '-f', name], check=True)


@contextlib.contextmanager
def machines():
    """An sshd of our own. Lines for a file of machines: two that are there, and one that is not."""
    room, port, closed = os.getcwd(), free_port(), free_port()
    ssh_keys()
    if os.getuid() == 0:
        os.makedirs('/run/sshd', exist_ok=True)  # where root's sshd shuts in those who have not shown their key
    write('sshd_config', f'Port {port}\nListenAddress 127.0.0.1\nHostKey {room}/host\nAuthorizedKeysFile {room}/user.pub\n'
                         f'PidFile none\nStrictModes no\nUsePAM no\nPasswordAuthentication no\n'.encode())
    write('ssh_config', f'Host *\nHostName 127.0.0.1\nPort {port}\nIdentityFile {room}/user\nIdentitiesOnly yes\n'
                        f'UserKnownHostsFile /dev/null\nStrictHostKeyChecking no\nLogLevel ERROR\nBatchMode yes\n'.encode())
    with started('/usr/sbin/sshd', '-D', '-e', '-f', f'{room}/sshd_config'):
        comes_true(lambda: accepts(port))
        yield f'1/ssh -F {room}/ssh_config one\n', f'1/ssh -F {room}/ssh_config two\n', \
            f'1/ssh -o Port={closed} -F {room}/ssh_config three\n'


def try_machines():
    names, _ = some_traces()
    os.mkdir('a folder')
    with machines() as (one, two, missing):
        plan('a folder/july', names)
        seen = fleet('machines', 'a folder/july', write('list', (one + two + missing).encode()))
        told = b''.join(line for line in seen[2].splitlines(keepends=True) if b'onnection refused' not in line)
        expect('machines: two of three are there', is_right((*seen[:2], told), os.path.abspath('a folder/july'), names), seen)
        plan('june', names, 2)
        seen = fleet('machines', 'june', write('list', missing.encode()))
        expect('machines: none is there', is_trouble(seen, b'2 of 2 lots are not judged: 1 2'), seen)
        seen = fleet('machines', 'june', write('list', one.encode()))
        expect('machines: and then one', is_right(seen, os.path.abspath('june'), names), seen)
    usage = [fleet('machines', 'june'), fleet('machines', 'june', 'nowhere'), fleet('machines', 'nowhere', 'list')]
    expect('machines: bad usage', all(is_trouble(seen) for seen in usage), usage)


SLURM_CONF = '''ClusterName=trial
SlurmctldHost={host}(127.0.0.1)
SlurmctldPort={controller}
SlurmdPort={node}
SlurmUser={user}
SlurmdUser={user}
AuthType=auth/munge
AuthInfo=socket={room}/munge/socket
CredType=cred/munge
StateSaveLocation={room}/state
SlurmdSpoolDir={room}/spool
SlurmctldPidFile={room}/slurmctld.pid
SlurmdPidFile={room}/slurmd.pid
ProctrackType=proctrack/pgid
TaskPlugin=task/none
SelectType=select/cons_tres
SelectTypeParameters=CR_CPU
SchedulerParameters=sched_min_interval=100000,batch_sched_delay=0
MpiDefault=none
ReturnToService=2
NodeName={host} NodeAddr=127.0.0.1 CPUs={processors}
PartitionName=all Nodes=ALL Default=YES State=UP
'''


def is_idle():
    done = subprocess.run(['sinfo', '--noheader', '--format=%T'], capture_output=True, check=False)
    return done.stdout == b'idle\n'


@contextlib.contextmanager
def slurm():
    """A Slurm of one node, on the loopback."""
    room = os.getcwd()
    for folder in ('munge', 'state', 'spool'):
        os.mkdir(folder, 0o755)
    os.chmod(write('munge/key', os.urandom(1024)), 0o400)
    write('slurm.conf', SLURM_CONF.format(host=socket.gethostname().split('.')[0], controller=free_port(), node=free_port(),
                                          user=getpass.getuser(), room=room, processors=os.cpu_count()).encode())
    os.environ['SLURM_CONF'] = f'{room}/slurm.conf'
    with started('/usr/sbin/munged', '--foreground', *(f'--{what}={room}/munge/{name}' for what, name in {
            'key-file': 'key', 'socket': 'socket', 'pid-file': 'pid', 'log-file': 'log', 'seed-file': 'seed'}.items())):
        comes_true(lambda: os.path.exists('munge/socket'))
        with started('/usr/sbin/slurmctld', '-D'), started('/usr/sbin/slurmd', '-D'):
            comes_true(is_idle)
            yield


def try_slurm():
    names, _ = some_traces()
    os.mkdir('a folder')
    with slurm():
        plan('a folder/july', [*names, 'late'], 3)
        seen = fleet('slurm', 'a folder/july', '--time=5')
        expect('slurm: a trace that cannot be read', is_trouble(seen, b'console: late: No such file', b'judged: 3'), seen)
        os.symlink(names[0], 'late')
        seen = fleet('slurm', 'a folder/july')
        expect('slurm: and then can', is_right(seen, os.path.abspath('a folder/july'), [*names, 'late']), seen)
    usage = [fleet('slurm'), fleet('slurm', '--time=5'), fleet('slurm', 'nowhere')]
    expect('slurm: bad usage', all(is_trouble(seen) for seen in usage), usage)


for one_try in (try_sum, try_plans, try_cores, try_failures, try_results, try_machines, try_slurm):
    with tempfile.TemporaryDirectory() as place:
        os.chmod(place, 0o755)
        os.chdir(place)
        if one_try is not try_sum:
            make_console()
        one_try()
        os.chdir('/')
runs.end()

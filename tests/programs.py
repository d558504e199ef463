"""Runs a built program on a schedule, and keeps what differs from what the model works out."""
import os, subprocess, tempfile


def run_by(program, config, text, folder):
    """What a program prints of a schedule, behind it the status and the error line if there is one."""
    for name, content in (('config.json', config), ('schedule', text)):
        with open(os.path.join(folder, name), 'wb') as file:
            file.write(content)
    run = subprocess.run([program, 'replay', 'config.json', 'schedule'], cwd=folder, capture_output=True, stdin=subprocess.DEVNULL, timeout=120)
    return run.stdout + (b'status %d %s' % (run.returncode, run.stderr) if run.returncode or run.stderr else b'')


def kept(folder, wanted, given):
    """Says where two outputs differ, which are put beside their schedule."""
    for name, content in (('wanted', wanted), ('given', given)):
        with open(os.path.join(folder, name), 'wb') as file:
            file.write(content)
    for number, (one, other) in enumerate(zip(wanted.split(b'\n') + [b'(end)'], given.split(b'\n') + [b'(end)']), 1):
        if one != other:
            print('%s: line %d\n  wanted %r\n  given  %r' % (folder, number, one[:300], other[:300]))
            break


def differs(program, config, text, wanted):
    """Whether a program prints something else than this of a schedule; it is then kept in a folder that is named."""
    with tempfile.TemporaryDirectory() as folder:
        given = run_by(program, config, text, folder)
    if given != wanted:
        folder = tempfile.mkdtemp(prefix='schedule_')
        run_by(program, config, text, folder)
        kept(folder, wanted, given)
    return given != wanted

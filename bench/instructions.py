#!/usr/bin/env python3
"""How many instructions loading and a run take on the files of bench/run.

    bench/run > /dev/null && python3 bench/instructions.py

Counted by valgrind (callgrind): a tenth of what eleven calls take more than one, so that starting the program does not show.
"""
import os
import re
import subprocess
import tempfile

HERE = os.path.dirname(os.path.abspath(__file__))
ROOT = os.path.join(HERE, '..')


def collected(command, stdin=subprocess.DEVNULL):
    """How many instructions a command takes, from its start to its end."""
    out = subprocess.run(['valgrind', '--tool=callgrind', '--callgrind-out-file=/dev/null'] + command,
                         stdin=stdin, stdout=subprocess.DEVNULL, stderr=subprocess.PIPE, check=True)
    return int(re.search(rb'Collected : (\d+)', out.stderr).group(1))


def instructions(program, file, call):
    return (collected([program, file, '11', call]) - collected([program, file, '1', call])) // 10


def calls(where):
    """calls.c with the static library, built in a folder."""
    program = os.path.join(where, 'calls')
    subprocess.run(['gcc', '-O2', '-I', os.path.join(ROOT, 'bind/c'), os.path.join(HERE, 'calls.c'),
                    os.path.join(ROOT, 'target/staticlib/libbirdweekly.a'), '-o', program], check=True)
    return program


def main():
    with tempfile.TemporaryDirectory() as where:
        program = calls(where)
        files = os.path.join(where, 'files')
        os.mkdir(files)
        subprocess.run([os.path.join(HERE, 'target/release/bench'), '--write', files], check=True)
        print('| file | bytes | load | run |\n|---|---|---|---|')
        for name in sorted(os.listdir(files)):
            path = os.path.join(files, name)
            print('| %s | %s | %s | %s |' % (name.split(' ', 1)[1], format(os.path.getsize(path), ','),
                                             format(instructions(program, path, 'load'), ','),
                                             format(instructions(program, path, 'run'), ',')), flush=True)


if __name__ == '__main__':
    main()

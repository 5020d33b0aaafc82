#!/usr/bin/env python3
"""How many instructions the listing of 8,190 refused commands takes, and how many of them printing.

    bind/program listing && bind/engine && python3 bench/listing.py [PROGRAM]

The file is as long as a file may be: a device, a number, its hash, and commands 30 for that hash, each refused since nobody knows the
number. PROGRAM is target/bin/listing if none is named. Starting the program does not show: what the listing of an empty file takes is
taken off. Printing is what the listing then takes more than a run.
"""
import os
import sys
import tempfile

from instructions import ROOT, calls, collected, instructions

COMMANDS = 8190
REFUSED = bytes.fromhex('0100' '160000' '120000') + bytes.fromhex('30000001') * COMMANDS


def main():
    listing = sys.argv[1] if len(sys.argv) > 1 else os.path.join(ROOT, 'target/bin/listing')
    with tempfile.TemporaryDirectory() as where:
        files = []
        for name, data in (('refused', REFUSED), ('empty', b'')):
            files.append(os.path.join(where, name))
            with open(files[-1], 'wb') as f:
                f.write(data)

        def listed(path):
            with open(path, 'rb') as f:
                return collected([listing], f)

        program = calls(where)
        whole = listed(files[0]) - listed(files[1])
        run = instructions(program, files[0], 'run') - instructions(program, files[1], 'run')
        print('listing %s, a run %s, printing %s, %.1f a line' % (
            format(whole, ','), format(run, ','), format(whole - run, ','), (whole - run) / COMMANDS))


if __name__ == '__main__':
    main()

#!/usr/bin/env python3
"""run.py PROGRAM CASES FAULTS: holds list_layout, or list_rdma_layout, to what it must print: on the stored bodies and on long inputs, in one piece and in chunks; and where a read or
a write is interrupted, is short or fails. FAULTS is the shared object of faults.c. In this order: a run; bodies; long inputs; calls that are made again; faults."""
import os
import subprocess
import sys
import time

program, cases, faults = sys.argv[1:4]
NAME = os.path.basename(program)
RDMA = NAME == 'list_rdma_layout'
failed = ran = 0


def hold(name, got, want):
    global failed, ran
    ran += 1
    if got != want:
        failed += 1
        print('%s: %r, and not %r' % (name, got, want))


def run(data, chunk=None, fault=None, **files):
    """What the program prints on standard output and on standard error, and its exit status."""
    env = dict(os.environ, LC_ALL='C')
    if fault is not None:
        env.update(LD_PRELOAD=os.path.abspath(faults), FAULT=fault)
    streams = dict(stdin=subprocess.PIPE, stdout=subprocess.PIPE, stderr=subprocess.PIPE)
    p = subprocess.Popen([program], env=env, **dict(streams, **files))
    for i in range(0, len(data) if chunk else 0, chunk or 1):
        p.stdin.write(data[i:i + chunk])
        p.stdin.flush()
        time.sleep(0.002)
    out, said = p.communicate(None if chunk or p.stdin is None else data)
    return (out or b'').decode(), said.decode(), p.returncode


def prints(name, data, want, chunk=None, fault=None):
    hold(name, run(data, chunk, fault), (want, '', 0))


def fails(name, data, after, what, out='', fault=None, **files):
    """Nothing, or nothing more, on standard output, and one line on standard error."""
    hold(name, run(data, fault=fault, **files), (out, '%s: after %d bytes: %s\n' % (NAME, after, what), 0))


def extents(n):
    number = lambda x, w: x.to_bytes(w, 'big')
    rows = [(2 ** 63 + 10 * i, 10, 2 ** 62 + i, i % 4, 2 ** 32 - 1 - i) for i in range(n)]
    handle = lambda h: number(h, 4) if RDMA else b''
    body = number(n, 4) + b''.join(bytes(16) + number(o, 8) + handle(h) + number(l, 8) + number(s, 8) + number(t, 4) for o, l, s, t, h in rows)
    columns = 5 if RDMA else 4
    return body, 'extents %d\n' % n + ''.join(' '.join(str(x) for x in r[:columns]) + '\n' for r in rows)


# ---- bodies
for line in open(cases):
    if line.startswith('#') or not line.strip():
        continue
    name, body, lines = line.rstrip('\n').split(' ', 2)
    data = b'' if body == '-' else bytes.fromhex(body)
    want = lines.replace('|', '\n') + '\n'
    prints(name, data, want)
    if data:
        prints(name + ' byte by byte', data, want, 1)
for n in (0, 1, 2, 1023, 1024):
    body, want = extents(n)
    prints('%d extents' % n, body, want)
    prints('%d extents in chunks' % n, body, want, 4099)

# ---- long inputs: over 65,536 bytes the answer is 1, also where the count alone would be refused by 2
prints('1025 extents', extents(1025)[0], 'refused 2 at 0\n')
prints('65536 bytes', bytes(65536), 'refused 1 at 0\n')
prints('65536 bytes of 255', b'\xff' * 65536, 'refused 2 at 0\n')
prints('65537 bytes of 255', b'\xff' * 65537, 'refused 1 at 0\n')
prints('a million bytes', b'\xff' * 1000000, 'refused 1 at 0\n')

# ---- calls that are interrupted or short go on
body, text = extents(100)
prints('interrupted', body, text, fault='interrupt')
prints('short', body, text, fault='short')
prints('interrupted and short', body, text, fault='interrupt short')
prints('a million bytes, interrupted', b'\xff' * 1000000, 'refused 1 at 0\n', fault='interrupt')

# ---- faults
READING, WRITING = 'reading standard input', 'writing standard output'
folder = os.open('/', os.O_RDONLY)
fails('a directory as input', b'', 0, READING + ': Is a directory', stdin=folder)
os.close(folder)
for after in (0, 1, 3, 4, 47, 4403, 4404):
    fails('an input that fails after %d bytes' % after, body, after, READING + ': Input/output error', fault='read-after=%d' % after)
for after in (65536, 65537, 65538, 131073, 999999):
    fails('a long input that fails after %d bytes' % after, b'\xff' * 1000000, after, READING + ': Input/output error', fault='read-after=%d' % after)
fails('interrupted, short and failing', body, 90, READING + ': Input/output error', fault='interrupt short read-after=90')
with open('/dev/full', 'wb') as full:
    fails('a full disk as output', body, 0, WRITING + ': No space left on device', stdout=full)
for after in (1, 11, 1000):
    fails('an output that fails after %d bytes' % after, body, after, WRITING + ': No space left on device', out=text[:after], fault='interrupt short write-after=%d' % after)
print(NAME + ': %d runs: %s' % (ran, '%d FAILED' % failed if failed else 'as they must be'))
sys.exit(1 if failed or not ran else 0)

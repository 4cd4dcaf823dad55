#!/usr/bin/env python3
"""Captures written and read by tools that are not ours.

    tests/captures.py [--install] [--bench CMD..] [--seed N]

Packets go through text2pcap, tcpdump, editcap and scapy into capture files,
whole and cut by a snapshot length; tcpdump also captures some of this machine's
own, where it has leave to. The reference's capture reader must find the
same bytes in them, its header reader the same six values as tshark, tcpdump and
scapy, and the same packets cut short. With --bench, the bench program must write
what the reference writes. Tools that are missing are installed with --install; a
part without its tool is skipped and counted.
"""

import argparse
import os
import random
import re
import shutil
import socket
import subprocess
import sys
import tempfile
from functools import cache
from pathlib import Path

from independent import command_line
from packets import address, capture_of
from reference import (BENCH_RULES, bench_output, capture_records, default_rule, header_fault,
                       read_header)
from tables import random_packet

HERE = Path(__file__).resolve().parent
PYTHONS = (sys.executable, 'python3', '/usr/bin/python3')
SNAPS = (19, 20, 24, 27, 40)  # snapshot lengths
ETHERNET = bytes(12) + b'\x08\x00'


class Missing(Exception):
    pass


def run(command, **more):
    return subprocess.run(command, check=True, capture_output=True, timeout=300, **more).stdout


def tool(name):
    found = shutil.which(name)
    if not found:
        raise Missing(name)
    return found


@cache
def python_with_scapy():
    for python in PYTHONS:
        if shutil.which(python) and subprocess.run(
                [python, '-c', 'import scapy.all'], capture_output=True).returncode == 0:
            return python
    raise Missing('scapy')


def install():
    found = subprocess.run([HERE / 'tools', 'readers'], capture_output=True, text=True, timeout=900)
    if found.returncode:
        print('the readers are not all there: %s' % found.stderr.strip()[-500:])


def some_packets(rng, count):
    rules = list(BENCH_RULES) + [default_rule(0)]
    return [p for p in (random_packet(rng, rules) for _ in range(count)) if p]


class Captures:
    def __init__(self, options, folder):
        self.options, self.folder = options, folder
        self.rng = random.Random(options.seed)
        self.passed, self.failed, self.skipped = 0, 0, 0

    def path(self, name):
        return os.path.join(self.folder, name)

    def verdict(self, truth, what):
        if truth:
            self.passed += 1
        else:
            self.failed += 1
            print('FAILED %s (--seed %d)' % (what, self.options.seed))

    def held(self, path):
        with open(path, 'rb') as file:
            return file.read()

    def examine(self, path, packets, what):
        """A capture that must be accepted and hold these packets."""
        capture = self.held(path)
        self.verdict(capture_records(capture) == (packets, 0), 'the packets of ' + what)
        self.bench(capture, what)

    def refused(self, path, what):
        capture = self.held(path)
        self.verdict(bench_output(capture) == 'refused 12\n', 'the refusal of ' + what)
        self.bench(capture, what)

    def bench(self, capture, what):
        if self.options.bench:
            self.verdict(run(self.options.bench, input=capture).decode() == bench_output(capture),
                         'the bench program over ' + what)

    def compare(self, packets, values, what):
        """Values as a tool reads them, None where it says nothing, beside the
        reference's."""
        told, with_ports, bad = 0, 0, []
        for packet, theirs in zip(packets, values):
            ours = read_header(packet)[1]
            if ours is None or theirs is None:
                continue
            told += 1
            with_ports += any(ours[3:5]) and None not in theirs
            if any(b is not None and a != b for a, b in zip(ours, theirs)):
                bad.append((packet.hex(), ours, theirs))
        print('%s: %d packets, %d read by both, %d of them with ports' % (
            what, len(packets), told, with_ports))
        self.verdict(len(packets) == len(values) and told and not bad, '%s: %s' % (what, bad[:3]))

    def answers(self, packets, theirs, what):
        """Answers by a tool's own reading, None where it says nothing, beside the reference's.
        With 20 bytes and more some must be 14."""
        ours = [read_header(packet)[0] for packet in packets]
        bad = [(packet.hex(), a, b) for packet, a, b in zip(packets, ours, theirs)
               if b is not None and a != b]
        cut = sum(b == 14 for b in theirs)
        print('%s: %d packets, %d cut short' % (what, len(packets), cut))
        self.verdict(len(packets) == len(theirs) and (cut or max(map(len, packets)) < 20)
                     and not bad, '%s: %s' % (what, bad[:3]))

    def write(self, path, *capture, **more):
        with open(path, 'wb') as file:
            file.write(capture_of(*capture, **more))

    # -- parts --

    def text2pcap(self):
        """Files by text2pcap, values by tshark."""
        text2pcap, tshark = tool('text2pcap'), tool('tshark')
        packets = some_packets(self.rng, 1500)
        dump = '\n'.join('000000 ' + p.hex(' ') for p in packets) + '\n'
        path = self.path('text2pcap.pcap')
        run([text2pcap, '-q', '-F', 'pcap', '-l', '101', '-', path], input=dump.encode())
        self.examine(path, packets, 'a file by text2pcap')
        self.compare(packets, self.by_tshark(tshark, path), 'tshark')
        other = self.path('other.pcap')
        run([text2pcap, '-q', '-F', 'pcap', '-l', '1', '-', other], input=dump.encode())
        self.refused(other, 'a file by text2pcap of link type 1')
        run([text2pcap, '-q', '-F', 'nsecpcap', '-l', '101', '-', other], input=dump.encode())
        self.refused(other, 'a file by text2pcap with nanoseconds')
        run([text2pcap, '-q', '-F', 'pcapng', '-l', '101', '-', other], input=dump.encode())
        self.refused(other, 'a file by text2pcap in the newer layout')

    def by_tshark(self, tshark, path):
        names = ('ip.version', 'ip.dst', 'ip.src', 'ip.proto', 'udp.dstport', 'udp.srcport',
                 'tcp.dstport', 'tcp.srcport', 'ip.frag_offset')
        out = run([tshark, '-n', '-r', path, '-o', 'ip.defragment:FALSE', '-T', 'fields',
                   '-E', 'occurrence=f', '-E', 'separator=|']
                  + [part for name in names for part in ('-e', name)])
        return [self.tshark_values(line.split('|')) for line in out.decode().split('\n')[:-1]]

    def tshark_values(self, row):
        if row[0] != '4' or not all(row[1:4]):
            return None
        protocol, ports = int(row[3]), (0, 0, 1)
        if protocol in (6, 17) and row[8] == '0':
            pair = row[4:6] if protocol == 17 else row[6:8]
            ports = tuple(int(port) if port else None for port in pair) + (0,)
        return (address(row[1]), address(row[2]), protocol) + ports

    def tcpdump(self):
        """A file of ours passed on by tcpdump, and its own reading."""
        tcpdump = tool('tcpdump')
        packets = some_packets(self.rng, 1500)
        first, second = self.path('ours.pcap'), self.path('tcpdump.pcap')
        for order in ('big', 'little'):
            self.write(first, packets, order)
            run([tcpdump, '-r', first, '-w', second])
            self.examine(second, packets, 'a file by tcpdump')
        readable = [packet for packet in packets if read_header(packet)[1]]
        self.write(first, readable)
        out = run([tcpdump, '-nn', '-v', '-t', '-r', first]).decode(errors='replace')
        blocks = re.split(r'\n(?=IP \()', out)
        self.compare(readable, [self.tcpdump_values(block) for block in blocks], 'tcpdump')

    def tcpdump_values(self, block):
        head = re.match(r'IP \(.*offset (\d+),.*proto [^(]*\((\d+)\), length \d+(?:, .*?)?\)\s+'
                        r'(\d+\.\d+\.\d+\.\d+)(?:\.(\d+))? > (\d+\.\d+\.\d+\.\d+)(?:\.(\d+))?[: ]',
                        block, re.S)
        if not head:
            return None
        offset, protocol = int(head[1]), int(head[2])
        ports = (0, 0, 1)
        if protocol in (6, 17) and offset == 0:
            ports = (int(head[6]), int(head[4]), 0) if head[6] and head[4] else (None, None, 0)
        return (address(head[5]), address(head[3]), protocol) + ports

    def editcap(self):
        """Files of ours cut by editcap to a snapshot length, and tshark's own reading of what
        is left. On Ethernet its 14 bytes count among that length, and go as README has it."""
        editcap, tshark = tool('editcap'), tool('tshark')
        packets = some_packets(self.rng, 600)
        first, second, third = map(self.path, ('ours.pcap', 'cut.pcap', 'raw.pcap'))
        for snap in SNAPS:
            left = [packet[:snap] for packet in packets]
            what = 'snapshot length %d' % snap
            self.write(first, packets, self.rng.choice(('big', 'little')))
            run([editcap, '-F', 'pcap', '-s', str(snap), first, second])
            self.examine(second, left, 'a file by editcap, ' + what)
            self.answers(left, self.tshark_answers(tshark, second), 'tshark, ' + what)
            self.write(first, [ETHERNET + packet for packet in packets], link=1)
            run([editcap, '-F', 'pcap', '-s', str(snap + len(ETHERNET)), first, second])
            run([editcap, '-F', 'pcap', '-T', 'rawip', '-C', '14', second, third])
            self.examine(third, left, 'a file by editcap from Ethernet, ' + what)

    def tshark_answers(self, tshark, path):
        """7, 14 or 0 by the numbers that tshark finds in the header; none of these where it
        calls a packet limited during capture that by them is whole."""
        names = ('frame.cap_len', 'ip.version', 'ip.hdr_len', 'ip.len', 'ip.proto',
                 'ip.frag_offset', '_ws.short')
        out = run([tshark, '-n', '-r', path, '-o', 'ip.defragment:FALSE',
                   '-o', 'ip.tso_support:FALSE', '-T', 'fields',
                   '-E', 'occurrence=f', '-E', 'separator=|']
                  + [part for name in names for part in ('-e', name)])
        answers = []
        for line in out.decode().split('\n')[:-1]:
            *numbers, short = line.split('|')
            size, version, header, total, protocol, offset = (int(n or -1) for n in numbers)
            ports = 4 if protocol in (6, 17) and offset == 0 else 0
            bad = size < 20 or version != 4 or header < 20 or total < header + ports
            answers.append(7 if bad else 14 if size < total else -1 if short else 0)
        return answers

    def live(self):
        """Packets of this machine to itself, cut by tcpdump -s while it captures them. (What
        tcpdump reads from a file it passes on whole.)"""
        tcpdump, editcap = tool('tcpdump'), tool('editcap')
        for snap in SNAPS:
            sizes = [self.rng.choice((0, 1, 11, 12, 13, 30, 400)) for _ in range(12)] + [0, 13]
            first, second = map(self.path, ('live.pcap', 'raw.pcap'))
            try:
                self.caught(tcpdump, snap + len(ETHERNET), sizes, first)
            except (OSError, subprocess.TimeoutExpired) as why:
                raise Missing('a loopback that tcpdump hears') from why
            run([editcap, '-F', 'pcap', '-T', 'rawip', '-C', '14', first, second])
            packets = capture_records(self.held(second))[0]
            what = 'tcpdump -s %d on the loopback' % (snap + len(ETHERNET))
            self.verdict([len(packet) for packet in packets] == [min(28 + n, snap) for n in sizes],
                         'the lengths by ' + what)
            self.answers(packets, [7 if snap < 20 else 14 if snap < 28 + n else 0 for n in sizes],
                         what)
            self.bench(self.held(second), what)

    def caught(self, tcpdump, snap, sizes, path):
        """Sends UDP packets that carry so many bytes, which tcpdump captures."""
        with socket.socket(socket.AF_INET, socket.SOCK_DGRAM) as here, \
                socket.socket(socket.AF_INET, socket.SOCK_DGRAM) as there:
            here.bind(('127.0.0.1', 0))
            there.bind(('127.0.0.1', 0))
            ports = 'src port %d and dst port %d' % (here.getsockname()[1], there.getsockname()[1])
            p = subprocess.Popen([tcpdump, '-i', 'lo', '-Z', 'root', '-s', str(snap), '-w', path,
                                  '-c', str(len(sizes)), '--immediate-mode', 'udp and ' + ports],
                                 stderr=subprocess.PIPE, text=True)
            try:
                if not any('listening on' in line for line in p.stderr):
                    raise Missing('leave to capture')
                for size in sizes:
                    here.sendto(bytes(size), there.getsockname())
                p.wait(timeout=60)
            finally:
                p.kill()
                p.communicate()

    def missing(self):
        """The first bytes of packets as if there were no more, and what tcpdump misses."""
        tcpdump = tool('tcpdump')
        packets = some_packets(self.rng, 600)
        path = self.path('missing.pcap')
        for snap in SNAPS[1:]:
            left = [packet[:snap] for packet in packets]
            self.write(path, left)
            out = run([tcpdump, '-nn', '-v', '-t', '-#', '-r', path]).decode(errors='replace')
            self.bench(self.held(path), 'packets of %d bytes at most' % snap)
            self.answers(left, self.tcpdump_answers(left, out), 'tcpdump, %d bytes at most' % snap)

    def tcpdump_answers(self, packets, out):
        """14 where tcpdump misses as many bytes as the total length asks for, 0 where it misses
        none; None where the header is not readable, on which it has other words."""
        heads = {int(n): rest for n, rest in re.findall(r'^ *(\d+)  (IP.*)$', out, re.M)}
        answers = []
        for place, packet in enumerate(packets, 1):
            if header_fault(packet):
                answers.append(None)
                continue
            misses = re.match(r'IP truncated-ip - (\d+) bytes missing! ', heads[place])
            wanted = packet[2] * 256 + packet[3] - len(packet)
            answers.append(0 if not misses else 14 if int(misses[1]) == wanted else -1)
        return answers

    def scapy(self):
        """Packets and files made by scapy, in both orders, whole and cut, and its reading."""
        python = python_with_scapy()
        for order, snap in [('<', 65535), ('>', 65535)] + list(zip('<><><', SNAPS)):
            path = self.path('scapy.pcap')
            out = run([python, '-c', SCAPY, path, order, str(self.rng.getrandbits(32)), '600',
                       str(snap)])
            rows = [line.split() for line in out.decode().splitlines()]
            packets = [bytes.fromhex(row[0]) for row in rows]
            what = 'scapy, order %s, snapshot length %d' % (order, snap)
            self.examine(path, packets, 'a file by ' + what)
            if snap < 65535:
                self.answers(packets, [int(row[1]) for row in rows], what)
            else:
                self.compare(packets, [tuple(map(int, row[2:])) for row in rows], what)


# Runs under an interpreter that has scapy: makes packets, writes them or their
# first bytes, and prints for each its bytes, the answer by scapy's total length,
# and the values as scapy reads them back.
SCAPY = r'''
import random, sys
from scapy.all import (GRE, ICMP, IP, TCP, UDP, IPOption_NOP, IPOption_RR, Padding, Raw, raw)
from scapy.utils import RawPcapWriter
path, order = sys.argv[1:3]
seed, count, snap = map(int, sys.argv[3:])
rng = random.Random(seed)
def some_address():
    return '.'.join(str(rng.choice((0, 1, 10, 192, 255, rng.randrange(256)))) for _ in range(4))
def port():
    return rng.choice((0, 1, 80, 5000, 65535, rng.randrange(65536)))
def number(text):
    a, b, c, d = map(int, text.split('.'))
    return ((a * 256 + b) * 256 + c) * 256 + d
writer = RawPcapWriter(path, linktype=101, endianness=order, snaplen=snap)
writer.write_header(None)
for _ in range(count):
    options = rng.choice(([], [], [IPOption_NOP()], [IPOption_NOP()] * 7,
                          [IPOption_RR(routers=['1.2.3.4'])]))
    fragment = rng.choice((0, 0, 0, 1, 185, 8191))
    packet = IP(src=some_address(), dst=some_address(), options=options, frag=fragment,
                flags=rng.choice(('', 'DF', 'MF')), tos=rng.randrange(256), id=rng.randrange(65536))
    packet = packet / rng.choice((UDP(sport=port(), dport=port()), TCP(sport=port(), dport=port()),
                                  ICMP(), GRE(), Raw(b'12')))
    if isinstance(packet.payload, Raw):
        packet.proto = rng.choice((0, 2, 50, 132, 255))
    packet = packet / Raw(bytes(rng.choice((0, 1, 30, 1400))))
    whole = raw(packet / Padding(bytes(rng.choice((0, 0, 6, 46)))))
    data = whole[:snap]
    writer.write_packet(data, sec=1, usec=2, caplen=len(data), wirelen=len(whole))
    if len(data) < 20:
        print(data.hex(), 7)
        continue
    back = IP(data)
    ports = (0, 0, 1)
    if back.frag == 0 and isinstance(back.payload, (UDP, TCP)):
        ports = (back.payload.dport, back.payload.sport, 0)
    print(data.hex(), 14 if len(data) < back.len else 0, number(back.dst), number(back.src),
          back.proto, *ports)
writer.close()
'''


def main():
    parser = argparse.ArgumentParser(description='Captures by tools that are not ours.')
    parser.add_argument('--install', action='store_true')
    parser.add_argument('--bench', nargs='+', metavar='CMD')
    parser.add_argument('--seed', type=int, default=1)
    options = parser.parse_args()
    options.bench = options.bench and command_line(options.bench)
    with tempfile.TemporaryDirectory() as folder:
        captures = Captures(options, folder)
        for part in (captures.text2pcap, captures.tcpdump, captures.editcap, captures.live,
                     captures.missing, captures.scapy):
            try:
                try:
                    part()
                except Missing:
                    if not options.install:
                        raise
                    install()
                    options.install = False
                    part()
            except Missing as name:
                captures.skipped += 1
                print('skipped %s: %s is not there' % (part.__name__, name))
            except subprocess.SubprocessError as why:
                captures.verdict(False, '%s: %s %s' % (
                    part.__name__, why, (getattr(why, 'stderr', b'') or b'')[-500:]))
    print('%d skipped' % captures.skipped)
    print('%d passed, %d failed' % (captures.passed, captures.failed))
    return 1 if captures.failed else 0


if __name__ == '__main__':
    sys.exit(main())

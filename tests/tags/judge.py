#!/usr/bin/env python3
"""judge.py [--program PATH] [--capture FILE] [--spoil]: the tagged lighting commands of a replay program, judged by tshark's BACnet dissector.

Sends lighting commands in plain frames, each to an output of its own, and takes the line `tagged HEX` that the program prints for that output. Each
tagged form is put into a WriteProperty of Lighting_Command (BACnet/IP), tshark dissects it, and every field that it shows is compared with the command
that was sent. What is expected comes from the papers alone: numbers of operations and fields from the draft's clause 21, lengths from clause 20.2.

The last line is `N commands, M fields compared, D differences`; the exit status is 0 if D is 0, 1 if not, 2 if the judge could not run.
--capture FILE keeps the packets, to look at with `tshark -V -r FILE` or Wireshark.
--spoil shows that the judge can fail: it spoils some of the forms, an octet or a field at a time, and fails if one of these passes unnoticed."""
import argparse
import collections
import itertools
import os
import re
import shutil
import struct
import subprocess
import sys
import tempfile
import xml.etree.ElementTree

# the operations in the order of their numbers, each with the tags of its own fields; duration, tag 5, may go with every one
OPERATIONS = [('STOP', ()), ('FADE_TO', (1,)), ('FADE_TO_OVER', (1, 4)), ('RAMP_TO', (1,)), ('RAMP_TO_AT_RATE', (1, 2)), ('STEP_UP', ()), ('STEP_DOWN', ()),
              ('STEP_UP_BY', (3,)), ('STEP_DOWN_BY', (3,)), ('GOTO', (1,)), ('RELINQUISH', ())]
FIELDS = ['operation', 'level', 'rate', 'step', 'fade time', 'duration']
REALS = (1, 2, 3)
# tshark's names follow the published edition, where tag 5 is a priority; the draft has the duration there
SHOWN_NAMES = ['operation', 'target-level', 'ramp-rate', 'step-increment', 'fade-time', 'priority']
WHOLE = [100, 255, 256, 65535, 65536, 16777215, 16777216, 86400000]
# no fade time is longer than four hours
FADE_TIMES = [100, 255, 256, 65535, 65536, 8388608, 14399999, 14400000]
EDGES = {1: [0.0, 1.0, 50.0, 100.0, -0.0, 0.5, 33.333], 2: [0.125, 5.0, 100.0], 3: [0.125, 5.0, 100.0], 4: FADE_TIMES, 5: [None, 0] + WHOLE}

# where the property's value begins in a packet: Ethernet 14, IP 20, UDP 8, BVLC 4, NPDU 2, APDU 4, object 5, property 3, opening tag 1
BEGIN = 61
PROTOCOLS = ['geninfo', 'frame', 'eth', 'ip', 'udp', 'bvlc', 'bacnet', 'bacapp']

# a command: its operation's number, its fields by tag (duration None where it has none), and whether it is sent; a fresh output's command is not
Command = collections.namedtuple('Command', 'operation fields sent')
# a field as it is expected and as tshark shows it; `at` counts octets from the beginning of the tagged form, `length` leaves the tag's octet out
Field = collections.namedtuple('Field', 'name tag_class tag length at value')


def cannot_run(why):
    print('judge.py: ' + why, file=sys.stderr)
    sys.exit(2)


def commands():
    """The command of a fresh output, then every operation with every combination of the edges of its fields."""
    all_of_them = [Command(0, {5: None}, False)]
    for operation, (_, own) in enumerate(OPERATIONS):
        tags = own + (5,)
        all_of_them += [Command(operation, dict(zip(tags, values)), True) for values in itertools.product(*(EDGES[tag] for tag in tags))]
    return all_of_them


def in_words(command):
    return OPERATIONS[command.operation][0] + ''.join(' %s %s' % (FIELDS[tag], value) for tag, value in command.fields.items() if value is not None) + ('' if command.sent else ' of a fresh output')


def plain(command, number, output):
    """The plain frame: kind, station 0, number, time 0, output, then four bytes a field; FFFFFFFF is 'no duration'."""
    frame = struct.pack('>BBI6sB', 0x10 + command.operation, 0, number, bytes(6), output)
    for tag, value in command.fields.items():
        frame += struct.pack('>f', value) if tag in REALS else struct.pack('>I', 0xFFFFFFFF if value is None else value)
    return frame


def tagged_forms(program, sent):
    """What the program's writer makes of the commands, a list of at most 64 outputs at a time."""
    forms = []
    for first in range(0, len(sent), 64):
        part = sent[first:first + 64]
        frames = [plain(command, output + 1, output).hex() for output, command in enumerate(part) if command.sent]
        text = '\n'.join(['outputs %d' % len(part)] + frames) + '\n'
        printed = subprocess.run([program], input=text, stdout=subprocess.PIPE, text=True, timeout=120).stdout
        answers, _, found = printed.partition('--\n')
        if answers.split('\n') != ['Done'] * len(frames) + ['']:
            sys.exit('judge.py: a command that is in range was not answered Done:\n' + answers)
        lines = re.findall(r'^output (\d+)\n(?:(?!output ).*\n)*?tagged ((?:[0-9A-F]{2})+)$', found, re.M)
        if [output for output, _ in lines] != [str(output) for output in range(len(part))]:
            sys.exit('judge.py: not every output has a line `tagged HEX`, upper case and without blanks:\n' + found[:2000])
        forms += [bytes.fromhex(form) for _, form in lines]
    return forms


def wrapped(form, instance):
    """A WriteProperty of the object lighting-output (54), property lighting-command (380), as the payload of a BACnet/IP packet."""
    request = bytes([0x00, 0x05, instance % 256, 15, 0x0C]) + (54 << 22 | instance).to_bytes(4, 'big') + b'\x1A' + (380).to_bytes(2, 'big') + b'\x3E' + form + b'\x3F'
    return b'\x81\x0A' + (6 + len(request)).to_bytes(2, 'big') + b'\x01\x04' + request


def dissected(forms, capture):
    """tshark's packet details, a packet at a time, of the forms in their order; the number of a form is its object's instance."""
    with tempfile.TemporaryDirectory() as folder:
        # an empty folder of settings: those of the user must not change what is shown
        settings = dict(os.environ, WIRESHARK_CONFIG_DIR=folder)
        packets = capture or os.path.join(folder, 'packets')
        dump = ''.join('0000 %s\n' % wrapped(form, instance).hex(' ') for instance, form in enumerate(forms))
        made = subprocess.run(['text2pcap', '-q', '-u', '47808,47808', '-', packets], input=dump, text=True, stderr=subprocess.PIPE, env=settings)
        if made.returncode:
            cannot_run('text2pcap ended with status %d:\n%s' % (made.returncode, made.stderr))
        tshark = subprocess.Popen(['tshark', '-n', '-T', 'pdml', '-r', packets], stdout=subprocess.PIPE, stderr=subprocess.DEVNULL, env=settings)
        for _, element in xml.etree.ElementTree.iterparse(tshark.stdout):
            if element.tag == 'packet':
                yield element
                element.clear()
        if tshark.wait():
            cannot_run('tshark ended with status %d' % tshark.returncode)


def expected(command):
    """The fields that tshark must show of a command: in rising order of tags, one after the other, whole numbers in the fewest octets."""
    fields, at = [], 0
    for tag, value in [(0, command.operation)] + sorted(command.fields.items()):
        if value is None:
            continue
        length = 4 if tag in REALS else max(1, (value.bit_length() + 7) // 8)
        # six decimals do not tell all REALs apart, so the octets that tshark counts to the field are compared too
        text = '%.6f %s' % (struct.unpack('>f', struct.pack('>f', value))[0], struct.pack('>f', value).hex()) if tag in REALS else str(value)
        fields.append(Field(SHOWN_NAMES[tag], 'context', tag, length, at, text))
        at += 1 + length
    return fields


def label(element):
    return element.get('showname') or element.get('show') or element.get('name')


def shown(element):
    """A field as tshark shows it: `operation: NAME (NUMBER)`, `NAME: DECIMAL (Real)` or `NAME: (Unsigned) NUMBER`, over the three parts of its tag."""
    part = {child.get('name'): child.get('show') for child in element.iter('field')}
    name, _, text = label(element).partition(':')
    if re.fullmatch(r' \S+ \(Real\)', text):
        value = '%s %s' % (text.split()[0], element.get('value', '')[2:])
    else:
        number = re.fullmatch(r' \(Unsigned\) (\d+)' if name != 'operation' else r'.*\((\d+)\)', text)
        value = number.group(1) if number else text
    tag, length = (int(part.get(name, -1)) for name in ('bacapp.context_tag_number', 'bacapp.LVT'))
    # tshark's size of the field must be the tag's octet and what the tag says
    length = length if int(element.get('size')) == 1 + length else -1
    return Field(name, 'context' if part.get('bacapp.tag_class') == '1' else 'application', tag, length, int(element.get('pos')) - BEGIN, value)


def differences(packet, instance, command):
    """Where tshark's details of a packet are not those of the command: fields, and what stands around them."""
    fields = expected(command)
    end = sum(1 + field.length for field in fields)
    found = []
    # malformed, unknown or left over: tshark then has a protocol or an element more, or another in its place
    protocols = [protocol.get('name') for protocol in packet]
    remarks = [label(element) for element in packet.iter() if (element.get('name') or '').startswith('_ws.')]
    if protocols != PROTOCOLS or remarks:
        found.append('tshark remarks %s' % (remarks or protocols))
    request = packet.find('proto[@name="bacapp"]')
    # the first six are the request's head: type, flags, segments, size, invoke identifier, service
    elements = [] if request is None else list(request)[6:]
    around = [(label(element).strip(), int(element.get('pos')) - BEGIN) for element in elements]
    wanted = [('ObjectIdentifier: lighting-output, %d' % instance, -9), ('Property Identifier: lighting-command (380)', -4), ('{[3]', -1), ('lighting-command:', 0), ('}[3]', end)]
    if around != wanted:
        found.append('expected %s around the fields, tshark shows %s' % (wanted, around))
    elif int(request.get('pos')) + int(request.get('size')) != BEGIN + end + 1:
        found.append('octets are left over after the closing tag')
    have = [shown(element) for element in (elements[3] if len(elements) > 3 else [])]
    for want, got in itertools.zip_longest(fields, have):
        if want != got:
            found.append('expected %s\n    tshark shows %s' % (want and tuple(want), got and tuple(got)))
    return found


def spoilt(command, form):
    """The form with one octet exchanged for each other value; with a field left out, doubled or exchanged with the next; and with a whole number in an
    octet too many, and with one octet more or less at the end."""
    for at, octet in itertools.product(range(len(form)), range(256)):
        if form[at] != octet:
            yield form[:at] + bytes([octet]) + form[at + 1:]
    cuts = [(field, form[field.at:field.at + 1 + field.length]) for field in expected(command)]
    parts = [part for _, part in cuts]
    for index, (field, part) in enumerate(cuts):
        before, after = b''.join(parts[:index]), b''.join(parts[index + 1:])
        yield before + after
        yield before + part + part + after
        if index + 1 < len(parts):
            yield before + parts[index + 1] + part + b''.join(parts[index + 2:])
        if field.tag not in REALS:
            yield before + bytes([part[0] + 1, 0]) + part[1:] + after
    yield form[:-1]
    yield form + b'\x00'


def main():
    parser = argparse.ArgumentParser(description=__doc__, formatter_class=argparse.RawDescriptionHelpFormatter)
    parser.add_argument('--program', default=os.path.normpath(os.path.join(os.path.dirname(os.path.abspath(__file__)), '../../target/bin/replay')))
    parser.add_argument('--capture')
    parser.add_argument('--spoil', action='store_true')
    wanted = parser.parse_args()
    missing = [tool for tool in ('tshark', 'text2pcap') if not shutil.which(tool)]
    if missing:
        cannot_run('%s not there; on Debian: apt-get update && apt-get install -y tshark' % ' and '.join(missing))
    if not os.access(wanted.program, os.X_OK):
        cannot_run('no program %s; `tools/programs.sh replay` builds target/bin/replay' % wanted.program)

    sent = commands()
    forms = tagged_forms(wanted.program, sent)
    judged = [(command, form, False) for command, form in zip(sent, forms)]
    if wanted.spoil:
        # three commands that have every tag and whole numbers of one to four octets between them, each as it is and spoilt
        chosen = [Command(2, {1: 33.333, 4: 65536, 5: 256}, True), Command(4, {1: 0.5, 2: 0.125, 5: 86400000}, True), Command(7, {3: 5.0, 5: 0}, True)]
        judged = [judged[sent.index(command)] for command in chosen]
        judged += [(command, form, True) for command, whole, _ in judged for form in spoilt(command, whole)]

    packets, fields, count, unnoticed = 0, 0, 0, 0
    for instance, packet in enumerate(dissected([form for _, form, _ in judged], wanted.capture)):
        command, form, is_spoilt = judged[instance]
        found = differences(packet, instance, command)
        packets += 1
        fields += len(expected(command))
        if is_spoilt and not found:
            unnoticed += 1
            print('%s: %s passes as that command' % (in_words(command), form.hex().upper()))
        if not is_spoilt:
            count += len(found)
            for difference in found:
                print('%s: %s:\n    %s' % (in_words(command), form.hex().upper(), difference))
    if packets != len(judged):
        count += 1
        print('tshark dissected %d packets of %d' % (packets, len(judged)))
    if wanted.spoil:
        print('%d commands as they are, %d differences; %d spoilt commands, %d unnoticed' % (len(chosen), count, packets - len(chosen), unnoticed))
    else:
        print('%d commands, %d fields compared, %d differences' % (packets, fields, count))
    sys.exit(1 if count or unnoticed else 0)


main()

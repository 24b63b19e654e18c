"""lists.py MODEL N SEED COMMAND..: holds what the program scanlist prints against a second opinion, list by list.

The program is run by COMMAND, once for each list; the second opinion is printed(list) of the file MODEL. The first difference ends
the run, with status 1. Fixed lists come first: the tour, which has every number for every cause, with the lines that each of its
lists must end with; a list cut at every length; lists of some 10,000 steps; and fields as long as a length can say. Then N lists
are drawn, good ones and damaged ones. The run follows from SEED.

What the program prints is also held by itself to the lines that there can be, and to the sum of its own T lines. A list comes to
it from a file, or now and then through a pipe in portions, each of which it has to take before it gets the next.

host/run builds the program and calls this.
"""

import collections
import concurrent.futures
import fcntl
import os
import random
import re
import runpy
import struct
import subprocess
import sys
import tempfile
import termios
import time

CHANNEL, TARGET, DISTANCE, SPEED, DWELL = 1, 2, 3, 4, 5
RANGES = {TARGET: (-2147483647, 2147483647), DISTANCE: (-2147483647, 2147483647), SPEED: (1, 5000000), DWELL: (1, 10000)}
MOST = 10000

LAST_LINES = ('total', '20', '21', '22', '23', '24', '25', '26')
AT_ONCE = 2
# One list in so many goes through a pipe, in so many portions at most. A program that takes longer than this has not ended.
PIPED, PORTIONS, SECONDS = 8, 60, 120
# More bytes than this are not shown, but saved.
SHOWN = 400

NAN, INFINITY = float('nan'), float('inf')


# What lists are made of. A double is kept as its bits, so that no NaN changes on its way.

def real(number):
    return struct.pack('<d', number)


def bits(number):
    return struct.pack('<Q', number & 0xffffffffffffffff)


def field(tag, value, length=None):
    return struct.pack('<BH', tag, len(value) if length is None else length) + value


def channel(number):
    return field(CHANNEL, bytes([number]))


def target(number, tag=TARGET):
    return field(tag, real(number))


def speed(number):
    return field(SPEED, real(number))


def dwell(number):
    return field(DWELL, real(number))


def move(c, number, pps, tag=TARGET):
    return channel(c) + target(number, tag) + speed(pps)


# The fixed lists: what each is, its bytes, and, in the tour, the lines that its output must end with.

def values():
    """Values of each field with a double: where it stands, how a list has it, and those that are 24 and 25 there."""
    for name, tag in (('target', TARGET), ('distance', DISTANCE)):
        yield (name, 4, lambda value, tag=tag: channel(0) + field(tag, value),
               (2.5, -0.5, 2147483647.5, -2147483647.5, 5e-324), (2147483648, -2147483648, 1e10, 2.0 ** 63, 1e300, -1e300))
    yield ('speed', 15, lambda value: channel(0) + target(0) + field(SPEED, value),
           (0.5, -0.5, 5000000.5, 5e-324, -5e-324), (0, -0.0, -1, 5000001, 2.0 ** 52, 1e300))
    yield ('dwell', 0, lambda value: field(DWELL, value),
           (0.5, 1.5, 9999.5, 10000.5, 5e-324), (0, -0.0, -1, 10001, 2.0 ** 53, 1e300))


def tour():
    yield 'the empty list', b'', 'C REM\n0'
    yield 'a move and a dwell', move(3, 100, 800) + dwell(250), 'C REM\nC SPDM3800\nC SPDM3\nC ABS3+100\nT 250\n250'
    yield 'a distance of -0', move(10, -0.0, 5000000, DISTANCE), 'C REM\nC SPDMA5000000\nC SPDMA\nC RELA+0\n0'
    yield 'a target of -0', move(15, -0.0, 1), 'C REM\nC SPDMF1\nC SPDMF\nC ABSF+0\n0'
    yield ('the ends of the positions', move(0, -2147483647, 1) + move(9, 2147483647, 2, DISTANCE),
           'C ABS0-2147483647\nC SPDM92\nC SPDM9\nC REL9+2147483647\n0')
    yield 'the longest dwell', dwell(10000), 'C REM\nT 10000\n10000'
    yield 'a move without a dwell after it', dwell(1) + move(1, 1, 1), 'T 1\nC SPDM11\nC SPDM1\nC ABS1+1\n1'

    # 20, before every other fault of the field
    yield 'a tag alone', b'\x05', '20 0'
    yield 'a tag and half a length', b'\x05\x08', '20 0'
    yield 'a value cut short', dwell(1)[:-1], '20 0'
    yield 'an unknown tag, cut short', b'\x09\x01\x00', '20 0'
    yield 'a wrong length, cut short', b'\x01\x08\x00\x00', '20 0'
    yield 'a tag in a wrong place, cut short', b'\x04\x08\x00', '20 0'
    yield 'a dwell and a stray byte', dwell(3) + b'\x05', 'C REM\nT 3\n20 11'
    yield 'a target cut short', channel(0) + target(7)[:-3], '20 4'
    yield 'a speed cut short', channel(0) + target(7) + speed(1)[:-8], '20 15'
    yield 'a stray byte inside a step', channel(0) + b'\x02', '20 4'

    # 21
    yield 'an unknown tag', b'\x09\x01\x00\x00', '21 0'
    yield 'tag 0', field(0, b'\0'), '21 0'
    yield 'tag 255', field(255, bytes(8)), '21 0'
    yield 'a wrong place and a wrong length', b'\x02\x01\x00\x00', '21 0'
    for first in (TARGET, DISTANCE, SPEED):
        yield 'tag %d where a step begins' % first, field(first, real(1)), '21 0'
    for second in (channel(0), speed(1), dwell(1), field(6, real(1))):
        yield 'tag %d after a channel' % second[0], channel(0) + second, '21 4'
    for third in (channel(0), target(1), target(1, DISTANCE), dwell(1), field(6, real(1))):
        yield 'tag %d after a target' % third[0], channel(0) + target(1) + third, '21 15'
        yield 'tag %d after a distance' % third[0], channel(0) + target(1, DISTANCE) + third, '21 15'
    yield 'an end after a channel', channel(15), '21 4'
    yield 'an end after a target', dwell(3) + channel(0) + target(7), 'C REM\nT 3\n21 26'
    yield 'an end after a distance', channel(0) + target(7, DISTANCE), '21 15'

    # 22
    for length in (0, 2, 8):
        yield 'a channel of %d bytes' % length, field(CHANNEL, bytes(length)), '22 0'
    for length in (0, 1, 4, 7, 9, 16):
        yield 'a dwell of %d bytes' % length, field(DWELL, bytes(length)), '22 0'
        for tag in (TARGET, DISTANCE):
            yield 'tag %d with %d bytes' % (tag, length), channel(0) + field(tag, bytes(length)), '22 4'
        yield 'a speed of %d bytes' % length, channel(0) + target(1) + field(SPEED, bytes(length)), '22 15'
    yield 'a length with its bytes swapped', field(DWELL, bytes(0x800)), '22 0'

    # 23
    for number in (16, 17, 128, 255):
        yield 'channel %d' % number, channel(number), '23 0'
    yield 'channel 16 in a second step', dwell(1) + channel(16) + target(1), 'C REM\nT 1\n23 11'

    # 24 and 25; what is whole is so from 2^52 on
    for name, place, made, not_whole, outside in values():
        for number in not_whole + (INFINITY, -INFINITY):
            yield 'a %s of %r' % (name, number), made(real(number)), '24 %d' % place
        for nan in (0x7ff8000000000000, 0xfff8000000000000, 0x7ff0000000000001, 0xffffffffffffffff, 0x7ff4000000000000):
            yield 'a %s that is the NaN %x' % (name, nan), made(bits(nan)), '24 %d' % place
        for number in outside:
            yield 'a %s of %r' % (name, number), made(real(number)), '25 %d' % place

    # the first fault in the list: the target's, before any of the field after it
    yield 'a target that is a NaN, and a speed cut short', channel(0) + target(NAN) + b'\x04\x08\0\0', 'C REM\n24 4'
    yield 'a target too large, and a speed that is a NaN', channel(0) + target(1e10) + speed(NAN), '25 4'
    yield 'a target too large, and no speed', channel(0) + target(1e10), '25 4'
    yield 'a target too large, and a dwell', channel(0) + target(1e10) + dwell(1), '25 4'
    yield 'a distance of 0.5, and a stray byte', channel(0) + target(0.5, DISTANCE) + b'\x04', '24 4'
    yield 'a distance of 0.5, and a speed of no bytes', channel(0) + target(0.5, DISTANCE) + field(SPEED, b''), '24 4'
    yield 'nothing is looked at after a fault', dwell(0.5) + b'\x09', '24 0'

    # 26, after every other fault of the field
    most = dwell(1) * MOST
    yield '10,000 dwells of 1', most, 'T 1\n10000'
    yield '10,000 dwells of 10,000', dwell(10000) * MOST, 'T 10000\n100000000'
    for name, more, number in (
            ('a dwell', dwell(1), 26), ('a channel and the end', channel(3), 26), ('a move', move(3, 1, 1), 26),
            ('a dwell of 0', dwell(0), 25), ('a dwell that is a NaN', dwell(NAN), 24), ('channel 16', channel(16), 23),
            ('a channel of two bytes', field(CHANNEL, bytes(2)), 22), ('a target of 0', target(0), 21),
            ('two bytes', b'\x05\x08', 20)):
        yield '10,000 dwells and %s' % name, most + more, 'T 1\n%d %d' % (number, len(most))


def other_fixed():
    good = dwell(10000) + move(15, -2147483647, 5000000) + move(0, 7, 1, DISTANCE) + dwell(1) + dwell(250) + move(10, 0, 800)
    for length in range(len(good) + 1):
        yield 'a good list, cut to %d bytes' % length, good[:length]

    moves = move(15, -2147483647, 5000000)
    mixed = move(1, 2.0 ** 30, 1, DISTANCE) + dwell(10000)
    for name, most, one_less in (('dwells', dwell(9999) * MOST, dwell(9999) * (MOST - 1)),
                                 ('moves', moves * MOST, moves * (MOST - 1)),
                                 ('moves and dwells', mixed * (MOST // 2), mixed * (MOST // 2 - 1) + dwell(1))):
        yield '9,999 %s' % name, one_less
        yield '10,000 %s' % name, most
        for more in (dwell(1), channel(3), moves, dwell(0), dwell(NAN), channel(16), target(0), b'\x05\x08', b'\x01', field(5, b'')):
            yield '10,000 %s and the bytes %s' % (name, more.hex()), most + more
        yield '9,999 %s and a step that is cut' % name, one_less + channel(0) + target(1)

    # The longest field that there is, in every place, whole and with its last byte missing.
    for before in (b'', dwell(1), channel(0), channel(0) + target(1), channel(0) + target(NAN), dwell(1) * MOST, moves * MOST):
        for tag in (0, CHANNEL, TARGET, DISTANCE, SPEED, DWELL, 255):
            for length in (65535, 65534):
                yield ('tag %d with length 65535 and %d bytes, after %d' % (tag, length, len(before)),
                       before + field(tag, bytes(length), 65535))
    # More bytes than can matter: after a fault, and after the last step that a list may have.
    for before in (b'', dwell(1), moves * MOST):
        yield '%d bytes and half a million zeros' % len(before), before + bytes(500000)
        yield '%d bytes and half a million of a dwell' % len(before), before + (dwell(1) * 50000)[:500000]

    for length in (255, 256, 257, 0x0801, 0x1000, 0x8000):
        yield 'a dwell of %d bytes' % length, field(DWELL, bytes(length)) + dwell(1)
        yield 'a channel of %d bytes' % length, field(CHANNEL, bytes(length)) + dwell(1)


# The drawn lists.

class Draw(random.Random):
    def below(self, most):
        return self.getrandbits(64) % most

    def one_in(self, most):
        return self.below(most) == 0

    def pick(self, some):
        return some[self.below(len(some))]

    def between(self, low, high):
        return low + self.below(high - low + 1)


# Where something ends: of ranges, of what is whole, and of doubles. Their neighbours are drawn with them.
EDGES = (0.0, 1.0, 10000.0, 5000000.0, 2.0 ** 31 - 1, 2.0 ** 31, 2.0 ** 32, 2.0 ** 52, 2.0 ** 53, 2.0 ** 63, 2.0 ** 64, 1e300,
         sys.float_info.max, sys.float_info.min, 5e-324)


def any_double(draw):
    """The bytes of a double near an edge, or of a rare kind."""
    sign, fraction = draw.below(2) << 63, draw.below(2 ** 52)
    kind = draw.below(10)
    if kind == 0:  # a NaN, quiet or not, or an infinity
        return bits(sign | (0x7ff << 52) | draw.pick((0, 1, 1 << 51, fraction)))
    if kind == 1:  # below the least of full precision
        return bits(sign | draw.pick((fraction, 1, 2 ** 52 - 1)))
    if kind == 2:
        return bits(draw.getrandbits(64))
    if kind == 3:  # a size at which fractions become whole
        return bits(sign | (1023 + draw.below(70)) << 52 | fraction & (-1 << draw.below(53)))
    (near,) = struct.unpack('<Q', real(draw.pick(EDGES) + draw.pick((0, 0, 1, -1, 0.5, -0.5))))
    return bits((near + draw.pick((0, 0, 1, -1))) ^ (sign if draw.one_in(2) else 0))


def good_double(draw, tag):
    low, high = RANGES[tag]
    if draw.one_in(3):
        return real(draw.pick((low, low + 1, high - 1, high, min(high, 800))))
    if low < 0 and draw.one_in(6):
        return real(draw.pick((0.0, -0.0, 1.0, -1.0)))
    return real(draw.between(low, high) >> draw.below(32) or 1)


def good_fields(draw):
    fields = []
    for _ in range(draw.below(draw.pick((4, 4, 12, 12, 12, 40, 40, 400 if draw.one_in(8) else 8)))):
        if draw.one_in(2):
            fields.append(field(DWELL, good_double(draw, DWELL)))
        else:
            tag = draw.pick((TARGET, DISTANCE))
            fields += [channel(draw.below(16)), field(tag, good_double(draw, tag)), field(SPEED, good_double(draw, SPEED))]
    return fields


def with_double(draw, fields, changed):
    """Replaces the double of one field by what is made of it."""
    places = [k for k, one in enumerate(fields) if len(one) == 11]
    if places:
        at = draw.pick(places)
        fields[at] = fields[at][:3] + changed(fields[at][3:])


def edge(draw, fields):
    with_double(draw, fields, lambda value: any_double(draw))


def bit(draw, fields):
    with_double(draw, fields, lambda value: bits(struct.unpack('<Q', value)[0] ^ 1 << draw.below(64)))


def byte(draw, fields):
    at = draw.below(len(fields))
    place = draw.below(len(fields[at]))
    fields[at] = fields[at][:place] + bytes([draw.below(256)]) + fields[at][place + 1:]


def cut(draw, fields):
    del fields[draw.below(len(fields)) + 1:]
    fields[-1] = fields[-1][:draw.below(len(fields[-1]) + 1)]


def stray(draw, fields):
    fields.append(bytes(draw.pick((0, 1, 5, 8, draw.below(256))) for _ in range(draw.between(1, 4))))


def twice(draw, fields):
    at = draw.below(len(fields))
    fields.insert(draw.pick((at, draw.below(len(fields)))), fields[at])


def left_out(draw, fields):
    del fields[draw.below(len(fields))]


def swapped(draw, fields):
    at = draw.below(len(fields))
    other = draw.pick(((at + 1) % len(fields), draw.below(len(fields))))
    fields[at], fields[other] = fields[other], fields[at]


def tag_changed(draw, fields):
    at = draw.below(len(fields))
    fields[at] = bytes([draw.pick((draw.below(256), draw.below(7)))]) + fields[at][1:]


def length_changed(draw, fields):
    """A length that its value does not have, or a value of another length."""
    at = draw.below(len(fields))
    length = draw.pick((draw.below(20), draw.below(20), 0, 1, 8, 256, 0x0800, draw.below(65536), 65535))
    value = fields[at][3:]
    if draw.one_in(2):
        value = (value + bytes(length))[:length]
    fields[at] = field(fields[at][0] if fields[at] else 0, value, length)


def channel_changed(draw, fields):
    places = [k for k, one in enumerate(fields) if len(one) == 4]
    if places:
        fields[draw.pick(places)] = channel(draw.pick((15, 16, 17, 255, draw.below(256))))


DAMAGES = (edge, edge, edge, bit, bit, byte, byte, cut, stray, twice, left_out, swapped, tag_changed, length_changed, channel_changed)


def drawn(draw):
    fields = good_fields(draw)
    damages = []
    for _ in range(draw.pick((0, 1, 1, 1, 1, 2))):
        fields = [one for one in fields if one]
        if fields:
            damages.append(draw.pick(DAMAGES))
            damages[-1](draw, fields)
    return ' and '.join(['drawn'] + [damage.__name__ for damage in damages]), b''.join(fields)


# The program, and what can be said of its output alone.

def ended(process, out, err):
    if process.returncode:
        return out, 'it ended with status %d' % process.returncode
    return out, 'it said: %r' % err if err else None


def from_file(command, data):
    with tempfile.TemporaryFile() as source:
        source.write(data)
        source.seek(0)
        done = subprocess.run(command, stdin=source, stdout=subprocess.PIPE, stderr=subprocess.PIPE, timeout=SECONDS)
    return ended(done, done.stdout, done.stderr)


def from_pipe(command, data, portion):
    """The first portion is half of the others, so that they cut fields in other places too."""
    with tempfile.TemporaryFile() as out, tempfile.TemporaryFile() as err:
        process = subprocess.Popen(command, stdin=subprocess.PIPE, stdout=out, stderr=err, bufsize=0)
        pipe = process.stdin.fileno()
        until = time.monotonic() + SECONDS
        at, unread = 0, False
        try:
            while at < len(data):
                at += os.write(pipe, data[at:at + (portion if at else portion // 2 + 1)])
                while struct.unpack('i', fcntl.ioctl(pipe, termios.FIONREAD, bytes(4)))[0] and process.poll() is None:
                    if time.monotonic() > until:
                        raise subprocess.TimeoutExpired(command, SECONDS)
                    time.sleep(0.0001)
        except BrokenPipeError:
            unread = True  # it has to take the list to its end, whoever writes it
        except subprocess.TimeoutExpired:
            process.kill()
        process.stdin.close()
        try:
            process.wait(SECONDS)
        except subprocess.TimeoutExpired:
            process.kill()
            process.wait()
        out.seek(0)
        err.seek(0)
        if unread and not process.returncode:
            return out.read(), 'it did not read the list to its end'
        return ended(process, out.read(), err.read())


def outcome(command, data, portion):
    try:
        return from_pipe(command, data, portion) if portion else from_file(command, data)
    except subprocess.TimeoutExpired:
        return b'', 'it did not end within %d s' % SECONDS


FORM = re.compile(rb'C REM\n'
                  rb'(?:C SPDM([0-9A-F])[1-9][0-9]{0,6}\nC SPDM\1\nC (?:ABS|REL)\1(?:\+0|[+-][1-9][0-9]{0,9})\n|T [1-9][0-9]{0,4}\n)*'
                  rb'(?:(?P<total>0|[1-9][0-9]{0,8})|(?P<number>2[0-6]) (?P<offset>0|[1-9][0-9]*))\n')
MOVES, SPEEDS, DWELLS = (re.compile(form, re.MULTILINE) for form in
                         (rb'^C (?:ABS|REL).([+-][0-9]+)$', rb'^C SPDM.([0-9]+)$', rb'^T ([0-9]+)$'))


def judged(output, data):
    """The kind of the last line, and what is wrong with the output whatever the list means."""
    form = FORM.fullmatch(output)
    if not form:
        return None, 'a line has none of the forms that there are, or stands in a wrong place'
    moves, speeds, dwells = ([int(number) for number in form_of.findall(output)] for form_of in (MOVES, SPEEDS, DWELLS))
    for numbers, tag in ((moves, TARGET), (speeds, SPEED), (dwells, DWELL)):
        if any(not RANGES[tag][0] <= number <= RANGES[tag][1] for number in numbers):
            return None, 'a number is out of its range'
    if len(moves) + len(dwells) > MOST:
        return None, 'there are more than %d steps' % MOST
    if form.group('total') is None:
        return form.group('number').decode(), 'the offset lies outside the list' if int(form.group('offset')) > len(data) else None
    return 'total', 'the total is not the sum of the T lines' if int(form.group('total')) != sum(dwells) else None


# The run.

def same_lines(one, other):
    return next((k for k, (a, b) in enumerate(zip(one, other)) if a != b), min(len(one), len(other)))


def show(sides):
    """Prints what each side has printed: the lines from the first that is not the same, where there are many."""
    outputs = [output.splitlines(keepends=True) for _, output in sides]
    same = same_lines(outputs[0], outputs[-1])
    first = same - 3 if same > 12 else 0
    for (side, _), lines in zip(sides, outputs):
        print('  %s prints%s' % (side, ', after %d lines' % first if first else ''))
        for line in lines[first:first + 24]:
            print('    %r' % line)
        if len(lines) > first + 24:
            print('    and %d lines more' % (len(lines) - first - 24))


def kept(data, name):
    """The list in hex, or, where it is long, the file that it is saved to."""
    folder = os.path.join(os.path.dirname(os.path.dirname(os.path.abspath(__file__))), 'target', 'host')
    if len(data) > SHOWN:
        try:
            os.makedirs(folder, exist_ok=True)
            with open(os.path.join(folder, name), 'wb') as file:
                file.write(data)
            return 'saved to ' + file.name
        except OSError:
            pass
    return 'in hex ' + (data.hex() or '(empty)')


class Comparison:
    def __init__(self, printed, seed, command, lists, count):
        self.printed, self.seed, self.command = printed, seed, command
        self.lists, self.count = lists, count
        self.made = 0
        self.last_lines = collections.Counter()
        self.progress = sys.stderr.isatty() and os.environ.get('TERM', 'dumb') != 'dumb'

    def tell(self, text=''):
        if self.progress:
            sys.stderr.write('\r\033[K' + text)
            sys.stderr.flush()

    def fault(self, what, data, why, *outputs):
        self.tell()
        print('lists: seed %d, list %d (%s): %s' % (self.seed, self.made, what, why))
        print('  the list: %d bytes, %s' % (len(data), kept(data, 'list-%d-%d.bin' % (self.seed, self.made))))
        show(list(zip(('the program', 'the model'), outputs)))
        return False

    def compare(self, what, data, tail, result):
        """Whether one list is as it must be."""
        self.made += 1
        output, failure = result
        try:
            expected = self.printed(data)
        except Exception as error:  # whatever a model may raise is its failure
            return self.fault(what, data, 'the model failed: %r' % error, output)
        if failure:
            return self.fault(what, data, 'of the program: ' + failure, output, expected)
        if output != expected:
            return self.fault(what, data, 'they differ', output, expected)
        last_line, wrong = judged(output, data)
        if wrong:
            return self.fault(what, data, 'both are wrong: ' + wrong, output)
        if tail is not None and not (b'\n' + output).endswith(b'\n' + tail.encode() + b'\n'):
            return self.fault(what, data, 'both are wrong: it must end with %r' % tail, output)
        self.last_lines[last_line] += 1
        if self.made % 50 == 0:
            self.tell('lists: %d of %d' % (self.made, self.count))
        return True

    def run(self):
        """Whether all are as they must be. The program runs on some lists while the model is asked of others."""
        waiting = collections.deque()
        with concurrent.futures.ThreadPoolExecutor(AT_ONCE) as pool:
            for what, data, tail, portion in self.lists:
                waiting.append((what, data, tail, pool.submit(outcome, self.command, data, portion)))
                if len(waiting) > 2 * AT_ONCE and not self.first_of(waiting):
                    return False
            while waiting:
                if not self.first_of(waiting):
                    return False
        self.tell()
        return True

    def first_of(self, waiting):
        what, data, tail, result = waiting.popleft()
        return self.compare(what, data, tail, result.result())


def all_lists(fixed, count, draw):
    """What each list is, its bytes, how its output must end, where that is known, and its portions, 0 for a file."""
    for k in range(len(fixed) + count):
        what, data, *tail = fixed[k] if k < len(fixed) else drawn(draw)
        portion = 0
        if k % PIPED == 0:
            portion = max(draw.pick((1, 2, 3, 5, 7, 8, 11, 13, 64, 4095, 4097)), len(data) // PORTIONS + 1)
            what += '; in portions of %d' % portion
        yield what, data, tail[0] if tail else None, portion


def main(model, count, seed, *command):
    try:
        printed = runpy.run_path(model)['printed']
    except Exception as error:  # as above
        print('lists: the model %s can\'t be used: %r' % (model, error), file=sys.stderr)
        return 2
    count, seed = int(count), int(seed)
    fixed = list(tour()) + list(other_fixed())
    comparison = Comparison(printed, seed, command, all_lists(fixed, count, Draw(seed)), len(fixed) + count)
    if not comparison.run():
        return 1
    print('lists: seed %d, %d lists, no difference; by the last line:' % (seed, comparison.made))
    print(''.join('%8s' % name for name in LAST_LINES))
    print(''.join('%8d' % comparison.last_lines[name] for name in LAST_LINES))
    missing = [name for name in LAST_LINES if not comparison.last_lines[name]]
    if missing:
        print('lists: NOT every last line was given: there is no %s' % ', '.join(missing))
        return 1
    return 0


if __name__ == '__main__':
    try:
        sys.exit(main(*sys.argv[1:]))
    except KeyboardInterrupt:
        sys.exit(130)

"""mutants.py ROOT JOBS CRATE N SEED WORDS..: draws changes of one token of a crate and tries each with the prover. ../mutants calls
it, and its help says what is printed; SEED may be empty, and is drawn then. WORDS are --all, --above and --list.

Everything is proved in copies of the tree, one for each job, outside the repository: a change is put into a copy, the crate is
proved there by `rt check`, or a program by `rt run`, and the change is taken out again. Nothing is written to the repository. rt
begins with what earlier checks of the same files on this machine kept, so the crates below are mostly not proved again.
"""

import collections
import os
import queue
import random
import re
import shutil
import signal
import subprocess
import sys
import tempfile
import threading
import time

import changes

# What may come of a change.
REFUSED, SURVIVED, UNDECIDED = 'refused', 'not refused', 'undecided'
LANGUAGE, FORM = 'refused for a name or a type', 'refused by the form of a proof alone'
VERDICTS = (REFUSED, LANGUAGE, FORM, SURVIVED, UNDECIDED)
# A change that takes longer than so many times the unchanged crate, and than so many seconds, is undecided; for a crate above,
# which may have others to prove before it, than so many.
TIMES, SECONDS, SECONDS_ABOVE = 10, 120, 1800
# More of an error is not shown.
SHOWN = 300

# What the prover says of a fact that it does not find, and of anything else that it refuses.
ERROR = re.compile(r'^(?:\./)?(?P<file>[^:\s][^:]*):\d+:\d+: error(?P<code>\[[\w-]+\])?: (?P<text>.*)$')
NOT_PROVED = re.compile(r'^note: (?:\./)?(?P<file>[^:]+):\d+:\d+: (?:it is not proved that .*|`search` found no proof .*)$')
# Of a fact that it does not find it may say more: that it is false somewhere.
FALSE = re.compile(r'the facts known there allow values at which this goal is false')
# It comes of another error.
FOLLOWS = re.compile(r'was not admitted|which was rejected, w(?:as|ere) not checked')
# A proof names a goal, a step or a field that the changed code does not leave, or gives one goal where another is asked for.
UNFIT = re.compile(r'`[^`]*`: (?:(?:`[^`]*`: )?module `[^`]*` has no `|record `[^`]*` has no field `|`[^`]*` is not in scope|'
                   r'expected type `goal\.[^`]*`, but this has type `goal\.)')
# What rt prints before it runs a program, which is then proved.
RUNS = 'rt: running out/'

# A change that was tried: what came of it, the line that tells why, what the crates above say of it, and the seconds that it took.
Result = collections.namedtuple('Result', 'verdict why above took')


def say(text):
    print('mutants: ' + text, file=sys.stderr)


class Progress:
    """How far it is: on a terminal in one line that is written over and over, else in a line for each."""

    def __init__(self):
        self.over = sys.stderr.isatty() and os.environ.get('TERM', 'dumb') != 'dumb'

    def tell(self, text):
        sys.stderr.write(('\r\033[Kmutants: %s' if self.over else 'mutants: %s\n') % text)
        sys.stderr.flush()

    def clear(self):
        if self.over:
            sys.stderr.write('\r\033[K')
            sys.stderr.flush()


# The crates of crates.txt.

def dependencies(root):
    """What each crate depends on, in the order of the file."""
    found = {}
    with open(os.path.join(root, 'crates.txt'), encoding='utf-8') as file:
        for line in file:
            name, colon, below = line.partition('#')[0].partition(':')
            if colon:
                found[name.split()[0]] = below.split()
    return found


def reached(below, crate):
    """The crates that are proved for one, each after those that it depends on."""
    found = []

    def visit(name):
        if name in below and name not in found:
            for each in below[name]:
                visit(each)
            found.append(name)

    visit(crate)
    return found


def crates_above(below, crate):
    """The crates that depend on one, each after those that it depends on and the near ones first."""
    depth = {}
    for name in below:
        for each in reached(below, name):
            depth.setdefault(each, 1 + max([depth[other] for other in below[each] if other in depth], default=0))
    above = [name for name in below if name != crate and crate in reached(below, name)]
    return sorted(above, key=lambda name: depth[name])


# The copies.

def remove(room):
    """What was killed may still leave a file behind it while the folder goes."""
    for _ in range(50):
        shutil.rmtree(room, ignore_errors=True)
        if not os.path.exists(room):
            return
        time.sleep(0.1)
    say('%s can not be removed' % room)


def copy_sources(root, tree):
    """Copies the crates. Their must-fail edits have no part in this, and neither has what rt keeps for itself."""
    crates = os.path.join(root, 'crates')
    for crate in os.listdir(crates):
        for name in os.listdir(os.path.join(crates, crate)):
            if name not in ('must-fail', 'out'):
                one, other = os.path.join(crates, crate, name), os.path.join(tree, 'crates', crate, name)
                os.makedirs(os.path.dirname(other), exist_ok=True)
                (shutil.copytree if os.path.isdir(one) else shutil.copy)(one, other)
    for name in ('crates.txt', 'kit.txt'):
        shutil.copy(os.path.join(root, name), tree)


# The prover.

# A line that is there where a program is proved and does not do what it should.
OTHERWISE = 'the program then does not write what its file stdout has'


def wanted(folder):
    """What the program of a crate must write."""
    path = os.path.join(folder, 'stdout')
    if not os.path.isfile(path):
        return b''
    with open(path, 'rb') as file:
        return file.read()


class Prover:
    """Runs rt, and ends what it has started when all is over. Each rt has a session of its own, so that it ends with all that it
    has started itself."""

    def __init__(self):
        self.lock, self.running, self.over = threading.Lock(), set(), False

    def check(self, tree, crate, jobs=1, seconds=threading.TIMEOUT_MAX, follow=lambda line: None):
        """The status of rt check, or None where it took too long, and the lines that it printed. A program is run too, on its file
        stdin; a line more is there where it then does not write what its file stdout has."""
        folder = os.path.join(tree, 'crates', crate)
        runs = os.path.isfile(os.path.join(folder, 'src', 'main.rt'))
        words = ['rt', 'run' if runs else 'check', '--jobs', str(jobs)]
        with open(os.path.join(folder, 'stdin') if runs and os.path.isfile(os.path.join(folder, 'stdin')) else os.devnull) as given, \
                tempfile.TemporaryFile() as wrote:
            with self.lock:
                if self.over:
                    raise SystemExit
                # what rt itself says, of a program, comes on standard error
                process = subprocess.Popen(
                    words, cwd=folder, stdin=given, stdout=wrote if runs else subprocess.PIPE,
                    stderr=subprocess.PIPE if runs else subprocess.STDOUT, encoding='utf-8', errors='replace', start_new_session=True)
                self.running.add(process)
            timer = threading.Timer(seconds, self.end, [process])
            timer.start()
            lines = []
            with process.stderr if runs else process.stdout as said:
                for line in said:
                    lines.append(line.rstrip('\n'))
                    follow(lines[-1])
            process.wait()
            late = not timer.is_alive()
            timer.cancel()
            with self.lock:
                self.running.discard(process)
            wrote.seek(0)
            if not late and any(line.startswith(RUNS) for line in lines) and wrote.read() != wanted(folder):
                lines.append(OTHERWISE)
        return None if late else process.returncode, lines

    def end(self, process):
        try:
            os.killpg(process.pid, signal.SIGKILL)
        except ProcessLookupError:
            pass

    def end_all(self):
        with self.lock:
            self.over = True
            for process in self.running:
                self.end(process)


def within(text):
    """A line of the prover, whose paths are those of the crate, and not too long."""
    text = re.sub(r'^(note: )?\./', r'\1', text)
    return text if len(text) <= SHOWN else text[:SHOWN] + ' ..'


def messages(lines):
    """What the prover said, each with the lines that continue it, which are indented."""
    found = []
    for line in lines:
        if found and line.startswith('  '):
            found[-1] += ' ' + line.strip()
        else:
            found.append(line)
    return found


def judged(status, lines):
    """What came of a crate with a change in it, and the line that tells why."""
    if status is None:
        return UNDECIDED, 'it took too long'
    if OTHERWISE in lines:
        return SURVIVED, 'but ' + OTHERWISE
    if status == 0:
        return SURVIVED, ''
    found = [match for match in (ERROR.match(text) or NOT_PROVED.match(text) for text in messages(lines)) if match]
    if status != 1 or not found and 'logic=not-proved' not in lines:
        return UNDECIDED, within('rt ended with status %d%s' % (status, ': ' + lines[-1] if lines else ''))
    causes = [match for match in found if not FOLLOWS.search(match.group())] or found
    language = [match for match in causes if match.re is ERROR and not match.group('file').startswith('proofs/')]
    unfit = [match for match in causes if match.re is ERROR and UNFIT.match(match.group('text'))]
    # a goal of another name lost its answer, and that the search does not find one shows nothing
    facts = [match for match in causes if match not in unfit
             and not (unfit and match.re is NOT_PROVED and not FALSE.search(match.group()))]
    if language:
        return LANGUAGE, within(language[0].group())
    if causes and not facts:
        return FORM, within(causes[0].group())
    return REFUSED, within(facts[0].group() if facts else lines[-1])


# The run.

class Run:
    """The drawn changes of a crate, tried in copies of the tree, as many at a time as there are jobs."""

    def __init__(self, root, crate, drawn, jobs, above):
        self.root, self.crate, self.drawn, self.jobs = root, crate, drawn, jobs
        self.below = dependencies(root)
        self.above = crates_above(self.below, crate) if above else None
        self.prover, self.progress = Prover(), Progress()
        self.limit = SECONDS
        self.threads = []

    def make_trees(self, room):
        """The copies, in the first of which the unchanged crate and those below are proved; None where they are not. rt takes what it
        kept there for the others."""
        trees = [os.path.join(room, str(job)) for job in range(self.jobs)]
        for tree in trees:
            copy_sources(self.root, tree)
        return trees if self.prove_unchanged(trees[0]) else None

    def prove_unchanged(self, tree):
        """Whether the crate is proved as it stands. Says how far it is, and notes how long a change may take."""
        names = reached(self.below, self.crate)
        self.progress.tell('proving the unchanged crate and what is below it, %d in all' % len(names))
        told, began = [], time.time()

        def follow(line):
            nonlocal began
            match = re.match(r'crate (\w+): modules ', line)
            if match:
                told.append(match.group(1))
            elif line.startswith('logic=proved ') and told:
                # of what stands below it all is proved, also what rt says nothing of
                done = {below for name in told for below in reached(self.below, name)}
                self.progress.tell('crate %d of %d: %s proved' % (len(done), len(names), told[-1]))
                if told[-1] == self.crate:
                    self.limit = max(SECONDS, TIMES * (time.time() - began))
                began = time.time()

        status, lines = self.prover.check(tree, self.crate, self.jobs, follow=follow)
        self.progress.clear()
        if status != 0 or OTHERWISE in lines:
            print('\n'.join(lines[-20:]), file=sys.stderr)
            say('%s is not proved as it stands, so no change of it can be tried' % self.crate)
            return False
        return True

    def try_above(self, tree):
        """What the crates above say of a change that stands in a copy: the first that refuses it, or that none does."""
        for name in self.above:
            status, lines = self.prover.check(tree, name, seconds=SECONDS_ABOVE)
            if status != 0 or OTHERWISE in lines:
                return '%s, %s: %s' % ((name,) + judged(status, lines))
        return 'none refuses it' if self.above else 'there is none'

    def try_change(self, tree, change):
        """The result of one change, which is taken out of the copy again."""
        path = os.path.join(tree, change.path)
        with open(path, encoding='utf-8', newline='') as file:
            text = file.read()
        began = time.time()
        try:
            with open(path, 'w', encoding='utf-8', newline='') as file:
                file.write(text[:change.start] + change.new + text[change.start + change.length:])
            status, lines = self.prover.check(tree, self.crate, seconds=self.limit)
            verdict, why = judged(status, lines)
            above = self.try_above(tree) if verdict == SURVIVED and self.above is not None else ''
        finally:
            with open(path, 'w', encoding='utf-8', newline='') as file:
                file.write(text)
        return Result(verdict, why, above, time.time() - began)

    def work(self, tree, waiting, done):
        """Tries one change after the other in a copy. What goes wrong is passed on."""
        while True:
            try:
                number = waiting.get_nowait()
            except queue.Empty:
                return
            try:
                done.put((number, self.try_change(tree, self.drawn[number])))
            except BaseException as failure:  # whatever ends a worker would leave the run waiting for it
                done.put((number, failure))
                return

    def try_all(self, trees):
        """The results, in the order of the changes. Says what came of each as it comes."""
        waiting, done, results = queue.Queue(), queue.Queue(), {}
        for number in range(len(self.drawn)):
            waiting.put(number)
        self.threads = [threading.Thread(target=self.work, args=(tree, waiting, done)) for tree in trees]
        for thread in self.threads:
            thread.start()
        self.progress.tell('trying the changes, %d at a time' % len(trees))
        counts = collections.Counter()
        while len(results) < len(self.drawn):
            number, result = done.get()
            if isinstance(result, BaseException):
                raise result
            results[number] = result
            counts[result.verdict] += 1
            change = self.drawn[number]
            self.progress.tell('%d of %d tried, %d not refused; %s:%d %s (%.0f s)' % (
                len(results), len(self.drawn), counts[SURVIVED], change.path, change.line, result.verdict, result.took))
        self.progress.clear()
        return [results[number] for number in range(len(self.drawn))]

    def run(self):
        """The results; None where the unchanged crate is not proved. Nothing stays behind, however it ends."""
        room = tempfile.mkdtemp(prefix='mutants-')
        try:
            trees = self.make_trees(os.path.realpath(room))
            return self.try_all(trees) if trees else None
        finally:
            catch_signals(signal.SIG_IGN)
            self.prover.end_all()
            for thread in self.threads:
                thread.join()
            remove(room)


# What is printed.

def show(change, result=None):
    print('%s:%d (%s)' % (change.path, change.line, change.kind))
    print('  before: ' + change.before.strip())
    print('  after:  ' + change.after.strip())
    if result:
        print('  ' + result.verdict + (': ' + result.why if result.why else ''))
        if result.above:
            print('  above: ' + result.above)


def report(crate, seed, drawn, results, every):
    counts = collections.Counter(result.verdict for result in results)
    for change, result in zip(drawn, results):
        if every or result.verdict in (SURVIVED, UNDECIDED):
            show(change, result)
    counted = ', '.join('%d %s' % (counts[verdict], verdict.replace('refused ', '')) for verdict in VERDICTS)
    print('%s: %d changes, seed %d: %s' % (crate, len(drawn), seed, counted))


def main(root, jobs, crate, count, seed, *words):
    count = int(count)
    seed = int(seed) if seed else random.SystemRandom().randrange(10 ** 6)
    found = changes.all_changes(root, crate)
    drawn = changes.draw(found, count, seed)
    room = sum(len(places) for kind in found.values() for places in kind)
    say('%s: %d changes of the %d that it has room for, seed %d' % (crate, len(drawn), room, seed))
    if len(drawn) < count:
        say('there are no %d' % count)
    if '--list' in words:
        for change in drawn:
            show(change)
        return 0
    run = Run(root, crate, drawn, min(int(jobs), len(drawn) or 1), '--above' in words)
    results = run.run()
    if results is None:
        return 1
    report(crate, seed, drawn, results, '--all' in words)
    return 0


def end(number, frame):
    raise SystemExit(128 + number)


def catch_signals(action):
    """What was started to ignore a signal, as by nohup, goes on to."""
    for each in (signal.SIGHUP, signal.SIGINT, signal.SIGTERM):
        if signal.getsignal(each) != signal.SIG_IGN:
            signal.signal(each, action)


if __name__ == '__main__':
    catch_signals(end)
    sys.exit(main(*sys.argv[1:]))

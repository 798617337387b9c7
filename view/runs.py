"""A run as `mind` tells it: the rack file, its images, the schedule, the report and the journal, read for the tools that show
them. They are read for what is in them: whether they are in order is judged by `mind` alone. Nothing here is proved."""
import os
import subprocess
import sys
import tomllib

from machine import Machine, NoRun

TOP = os.path.dirname(os.path.dirname(os.path.abspath(__file__)))
COMMANDS = ('map', 'unmap', 'protect', 'migrate')


def number_of(word):
    """The number of a word of a schedule."""
    return int(word[2:], 16) if word.startswith('0x') else int(word)


class Unreadable(Exception):
    """What is told on standard error, and the status that the tool ends with."""

    def __init__(self, words, status=1):
        super().__init__(words)
        self.status = status


class Image:
    def __init__(self, name, at):
        self.name, self.at = name, at
        try:
            with open(name, 'rb') as file:
                content = file.read()
        except OSError as error:
            raise Unreadable(f'{name}: {error.strerror}') from error
        self.words = [int.from_bytes(content[place:place + 4], 'little') for place in range(0, len(content), 4)]

    def word(self, pc):
        """The word at a pc, None where it is not inside the image."""
        place = (pc - self.at & 0xffffffff) >> 2
        return self.words[place] if place < len(self.words) else None


class Rack:
    def __init__(self, name):
        try:
            with open(name, 'rb') as file:
                table = tomllib.load(file)
        except OSError as error:
            raise Unreadable(f'{name}: {error.strerror}') from error
        except (tomllib.TOMLDecodeError, UnicodeDecodeError) as error:
            raise Unreadable(f'{name} is a rack file for mind, but no TOML text for Python: {error}') from error
        self.frames, self.threads = [blade['frames'] for blade in table['blade']], table['thread']
        self.images = [Image(image['name'], image['at']) for image in table['image']]
        self.maps = table.get('map', [])


class Schedule:
    """The lines of a schedule that say something, as (number, first event, text); and its commands, as (event, words)."""

    def __init__(self, name, threads):
        with open(name, 'rb') as file:
            text = file.read().decode('latin-1')
        self.lines, self.commands, self.events, self.round = [], [], 0, 4 * threads
        for number, line in enumerate(text.split('\n'), 1):
            words = line.rstrip('\r').replace('\t', ' ').split()
            if not words or words[0].startswith('#'):
                continue
            if words[0] in COMMANDS:
                self.commands.append((self.events, words))
            self.lines.append((number, self.events, ' '.join(words)))
            self.events += self.round * number_of(words[1]) if words[0] == 'run' else 1

    def each_event(self):
        """Of each event its line's number and its words; `run` written out."""
        ends = [first for _, first, _ in self.lines[1:]] + [self.events]
        for (number, first, text), end in zip(self.lines, ends):
            for place in range(end - first):
                yield number, self.of_round(place) if text.startswith('run ') else text

    def of_round(self, place):
        thread, part = place % self.round // 4, place % 4
        return (f'step {thread}', 'settle', f'drain {thread}', 'settle')[part]


def answer_of(form, rack, schedule):
    """What the program writes; where it ends with a status other than 0, its words go to standard error."""
    program = os.environ.get('MIND') or os.path.join(TOP, 'mind')
    try:
        done = subprocess.run([program, form, rack, schedule], stdin=subprocess.DEVNULL, stdout=subprocess.PIPE)
    except OSError as error:
        raise Unreadable(f'{program}: {error.strerror}') from error
    text = done.stdout.decode('latin-1')
    if done.returncode:
        raise Unreadable(f'mind {form} ended with status {done.returncode}' + (f': {text.strip()}' if text.strip() else ''), done.returncode)
    return text


class Run:
    """What `mind` writes of a rack and a schedule, and its labels replayed: of each label what it did (`labels`), in order."""

    def __init__(self, rack, schedule):
        self.report = answer_of('run', rack, schedule)
        self.journal = answer_of('journal', rack, schedule)
        self.rack = Rack(rack)
        self.schedule = Schedule(schedule, len(self.rack.threads))
        self.notes = [line.split() for line in self.journal.splitlines()[1:]]
        lines = [line.split() for line in self.report.splitlines()]
        self.outcomes = [words[3] for words in lines if words[0] == 'command']
        self.counts = {name: int(count) for name, count in zip(lines[-1][1::2], lines[-1][2::2])}
        self.labels = []
        machine = Machine(self.rack)
        try:
            for note in self.notes:
                self.replay(machine, note)
        except NoRun as error:
            raise Unreadable(f'label {len(self.labels)} of the journal cannot be replayed here: {error}') from error
        ends = [line for line in self.report.splitlines() if line.startswith('thread ')]
        for thread, line in zip(machine.threads, ends):
            if thread.line() != line:
                raise Unreadable(f'the labels replay to "{thread.line()}", but the report has "{line}"')

    def replay(self, machine, note):
        if note[0] == 'x':
            self.labels.append(machine.execute(int(note[1])))
        elif note[0] == 'd':
            self.labels.append(machine.drain(int(note[1])))
        elif note[0] == 'c':
            index = int(note[1])
            words = self.schedule.commands[index][1]
            span = [number_of(word) for word in words[1:4]]
            self.labels.append(machine.command(words[0], span, words[4:], self.outcomes[index] == 'ok'))


def main_of(usage, count, work):
    """Calls the work with the words, of which there must be so many; what cannot be read is told in a line."""
    name = os.path.basename(sys.argv[0])
    if len(sys.argv) != count + 1:
        sys.exit(f'usage: {usage}')
    try:
        work(*sys.argv[1:])
    except Unreadable as error:
        print(f'{name}: {error}', file=sys.stderr)
        sys.exit(error.status)

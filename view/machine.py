"""The machine of total store order over flat memory, replayed over the labels of a journal: what each label read and wrote,
and whose stores it saw. It follows docs/DEFINITIONS.md, and nothing here is proved: it says more of a run than its journal
does, and how its threads end is compared with the report."""
from instructions import decode, signed, size_of

WORD = 0xffffffff
ATOMIC = ('lr', 'sc', 'amo')

# What an operation makes of two words, before it wraps at 32 bits.
OPERATIONS = {
    'add': lambda one, other: one + other, 'sub': lambda one, other: one - other,
    'sll': lambda one, other: one << (other & 31), 'srl': lambda one, other: one >> (other & 31),
    'sra': lambda one, other: signed(one, 32) >> (other & 31),
    'slt': lambda one, other: signed(one, 32) < signed(other, 32), 'sltu': lambda one, other: one < other,
    'xor': lambda one, other: one ^ other, 'or': lambda one, other: one | other, 'and': lambda one, other: one & other,
}
# The word that an atomic operation writes, of the old one and its operand.
COMBINATIONS = {
    'amoswap.w': lambda old, operand: operand, 'amoadd.w': OPERATIONS['add'], 'amoxor.w': OPERATIONS['xor'],
    'amoand.w': OPERATIONS['and'], 'amoor.w': OPERATIONS['or'], 'amominu.w': min, 'amomaxu.w': max,
    'amomin.w': lambda old, operand: min(old, operand, key=lambda word: signed(word, 32)),
    'amomax.w': lambda old, operand: max(old, operand, key=lambda word: signed(word, 32)),
}


class NoRun(Exception):
    """The label is not enabled in the state that the labels before it lead to."""


class Store:
    """A store that waits: the label that executed it, its lowest address, its bytes, lowest first."""

    def __init__(self, label, address, value, size):
        self.label, self.address, self.value, self.size = label, address, value, size

    def has(self, address):
        return 0 <= address - self.address < self.size


class Label:
    """A label with what it did. `kind` is load, store, lr, sc, amo, fence, call, other, drain or command; `source` has, byte by
    byte and lowest first, the label whose store was seen (None for the zeros of the start) and whether it still waited."""
    __slots__ = ('kind', 'thread', 'pc', 'word', 'register', 'value', 'address', 'size', 'stored', 'source', 'store', 'says')

    def __init__(self, kind, thread, pc=None, word=None):
        self.kind, self.thread, self.pc, self.word = kind, thread, pc, word
        self.register = self.value = self.address = self.size = self.stored = self.source = self.store = None
        self.says = ''


class Thread:
    def __init__(self, number, plan, image):
        self.number, self.domain, self.image, self.room = number, plan['domain'], image, plan['queue']
        self.registers, self.pc, self.end = [0] * 32, image.at, None
        self.output, self.queue, self.reserved = bytearray(), [], None

    def line(self):
        """The thread's line of a report."""
        end = f'running {self.pc:08x}' if self.end is None else self.end
        return f'thread {self.number} {end} out {self.output.hex() or "-"}'


class Memory:
    """Flat memory: the bytes of the pages that were written to, and by which label each byte was."""

    def __init__(self):
        self.pages = {}

    def page(self, domain, address):
        key = domain << 20 | address >> 12
        if key not in self.pages:
            self.pages[key] = (bytearray(4096), [None] * 4096)
        return self.pages[key]

    def write(self, label, domain, address, value, size):
        content, writers = self.page(domain, address)
        at = address & 4095
        content[at:at + size] = value.to_bytes(size, 'little')
        writers[at:at + size] = [label] * size

    def clear(self, label, domain, page, pages):
        for number in range(page, page + pages):
            self.pages[domain << 20 | number] = (bytearray(4096), [label] * 4096)


class Machine:
    def __init__(self, rack):
        self.threads = [Thread(number, plan, rack.images[plan['image']]) for number, plan in enumerate(rack.threads)]
        self.memory, self.permissions, self.count = Memory(), {}, 0
        for plan in rack.maps:
            self.permit(plan['domain'], plan['page'], plan['pages'], plan['perm'])

    def permit(self, domain, page, pages, permission):
        for number in range(page, page + pages):
            self.permissions[domain, number] = permission

    def thread(self, number):
        if number >= len(self.threads):
            raise NoRun(f'there is no thread {number}')
        return self.threads[number]

    def execute(self, number):
        """The label of a thread that executes its instruction."""
        thread = self.thread(number)
        if thread.end is not None:
            raise NoRun(f'thread {number} has ended')
        word = thread.image.word(thread.pc)
        instruction = decode(word) if word is not None else None
        label = Label('other', number, thread.pc, word)
        if instruction is None:
            self.fault(thread, label, 'fetch', thread.pc)
        elif thread.queue and (instruction.form in ATOMIC or instruction.form == 'fence' and instruction.number):
            raise NoRun(f'thread {number} has a store in its queue')
        else:
            getattr(self, 'do_' + instruction.form)(thread, label, instruction)
        self.count += 1
        return label

    def drain(self, number):
        """The label of a thread whose oldest store takes effect."""
        thread = self.thread(number)
        if not thread.queue:
            raise NoRun(f'thread {number} has no store in its queue')
        store = thread.queue.pop(0)
        label = Label('drain', number)
        label.address, label.size, label.stored, label.store = store.address, store.size, store.value, store.label
        self.take_effect(thread, store)
        self.count += 1
        return label

    def command(self, kind, span, permission, accepted):
        """The label of a map, an unmap or a protect that takes effect: on a domain's pages from a first one, so many."""
        domain, page, pages = span
        if kind in ('map', 'unmap'):
            for thread in self.threads:
                if thread.reserved is not None and thread.domain == domain and page <= thread.reserved >> 6 < page + pages:
                    thread.reserved = None
        if accepted:
            self.permit(domain, page, pages, permission[0] if permission else None)
            if kind == 'map':
                self.memory.clear(self.count, domain, page, pages)
        self.count += 1
        label = Label('command', None)
        label.says = ' '.join([kind, *(str(number) for number in span), *permission])
        return label

    def take_effect(self, thread, store):
        self.memory.write(store.label, thread.domain, store.address, store.value, store.size)
        for other in self.threads:
            if other.domain == thread.domain and other.reserved == store.address >> 6:
                other.reserved = None

    def fault(self, thread, label, kind, value):
        thread.end = f'fault {kind} {value:08x} at {thread.pc:08x}'
        label.says = f'ends with a fault: {kind} {value:08x}'

    def go_on(self, thread, label, register=0, value=0, pc=None):
        if register:
            thread.registers[register] = value & WORD
            label.register, label.value = register, value & WORD
        thread.pc = (thread.pc + 4 if pc is None else pc) & WORD

    def jump(self, thread, label, register, target):
        if target & 3:
            self.fault(thread, label, 'target', target)
        else:
            self.go_on(thread, label, register, thread.pc + 4, target)

    def is_allowed(self, thread, label, writes):
        """Whether the label's access may be done; else the thread ends."""
        permission = self.permissions.get((thread.domain, label.address >> 12))
        if label.address % label.size:
            self.fault(thread, label, 'align', label.address)
        elif permission is None or writes and permission != 'rw':
            self.fault(thread, label, 'store' if writes else 'load', label.address)
        else:
            return True
        return False

    def access(self, label, instruction, address):
        label.kind, label.address, label.size = instruction.form, address & WORD, size_of(instruction)

    def read(self, thread, label):
        """The number that the thread sees at the label's address, its source being noted."""
        content, writers = self.memory.page(thread.domain, label.address)
        at = label.address & 4095
        seen, source = bytearray(content[at:at + label.size]), [(writer, False) for writer in writers[at:at + label.size]]
        for store in thread.queue:
            for place in range(label.size):
                if store.has(label.address + place):
                    seen[place] = store.value >> 8 * (label.address + place - store.address) & 255
                    source[place] = (store.label, True)
        label.source = source
        return int.from_bytes(seen, 'little')

    def do_lui(self, thread, label, instruction):
        self.go_on(thread, label, instruction.rd, instruction.number)

    def do_auipc(self, thread, label, instruction):
        self.go_on(thread, label, instruction.rd, thread.pc + instruction.number)

    def do_jal(self, thread, label, instruction):
        self.jump(thread, label, instruction.rd, (thread.pc + instruction.number) & WORD)

    def do_jalr(self, thread, label, instruction):
        self.jump(thread, label, instruction.rd, (thread.registers[instruction.rs1] + instruction.number) & WORD & ~1)

    def do_branch(self, thread, label, instruction):
        one, other = thread.registers[instruction.rs1], thread.registers[instruction.rs2]
        if instruction.name in ('blt', 'bge'):
            one, other = signed(one, 32), signed(other, 32)
        taken = {'beq': one == other, 'bne': one != other}.get(instruction.name)
        if taken is None:
            taken = (one < other) == instruction.name.startswith('blt')
        label.says = 'taken' if taken else 'not taken'
        if taken:
            self.jump(thread, label, 0, (thread.pc + instruction.number) & WORD)
        else:
            self.go_on(thread, label)

    def do_opimm(self, thread, label, instruction):
        name = {'sltiu': 'sltu'}.get(instruction.name, instruction.name.rstrip('i'))
        self.go_on(thread, label, instruction.rd, int(OPERATIONS[name](thread.registers[instruction.rs1], instruction.number & WORD)))

    def do_op(self, thread, label, instruction):
        one, other = thread.registers[instruction.rs1], thread.registers[instruction.rs2]
        self.go_on(thread, label, instruction.rd, int(OPERATIONS[instruction.name](one, other)))

    def do_fence(self, thread, label, instruction):
        label.kind = 'fence'
        self.go_on(thread, label)

    def do_illegal(self, thread, label, instruction):
        self.fault(thread, label, 'illegal', label.word)

    def do_ebreak(self, thread, label, instruction):
        self.fault(thread, label, 'break', 0)

    def do_ecall(self, thread, label, instruction):
        label.kind = 'call'
        number, argument = thread.registers[17], thread.registers[10]
        if number == 1:
            thread.output.append(argument & 255)
            label.says = f'puts the byte {argument & 255:02x}'
            self.go_on(thread, label)
        elif number == 2:
            thread.end = f'exit {argument}'
            label.says = f'exits with {argument}'
        elif number == 3:
            self.go_on(thread, label, 10, thread.number)
        else:
            self.fault(thread, label, 'call', number)

    def do_load(self, thread, label, instruction):
        self.access(label, instruction, thread.registers[instruction.rs1] + instruction.number)
        if self.is_allowed(thread, label, False):
            value = self.read(thread, label)
            if instruction.name in ('lb', 'lh'):
                value = signed(value, 8 * label.size) & WORD
            self.go_on(thread, label, instruction.rd, value)

    def do_store(self, thread, label, instruction):
        if len(thread.queue) == thread.room:
            raise NoRun(f'the queue of thread {thread.number} is full')
        self.access(label, instruction, thread.registers[instruction.rs1] + instruction.number)
        if self.is_allowed(thread, label, True):
            label.stored = thread.registers[instruction.rs2] & (1 << 8 * label.size) - 1
            thread.queue.append(Store(self.count, label.address, label.stored, label.size))
            self.go_on(thread, label)

    def do_lr(self, thread, label, instruction):
        self.access(label, instruction, thread.registers[instruction.rs1])
        if self.is_allowed(thread, label, False):
            thread.reserved = label.address >> 6
            self.go_on(thread, label, instruction.rd, self.read(thread, label))

    def do_sc(self, thread, label, instruction):
        self.access(label, instruction, thread.registers[instruction.rs1])
        if self.is_allowed(thread, label, True):
            kept = thread.reserved == label.address >> 6
            thread.reserved = None
            if kept:
                label.stored = thread.registers[instruction.rs2]
                self.take_effect(thread, Store(self.count, label.address, label.stored, 4))
            label.says = 'its reservation stood' if kept else 'no reservation stood: nothing is stored'
            self.go_on(thread, label, instruction.rd, int(not kept))

    def do_amo(self, thread, label, instruction):
        self.access(label, instruction, thread.registers[instruction.rs1])
        if self.is_allowed(thread, label, True):
            old = self.read(thread, label)
            label.stored = COMBINATIONS[instruction.name](old, thread.registers[instruction.rs2]) & WORD
            self.take_effect(thread, Store(self.count, label.address, label.stored, 4))
            self.go_on(thread, label, instruction.rd, old)

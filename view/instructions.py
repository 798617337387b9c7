"""The instructions of RV32IA: what a word asks, and its text as docs/FORMATS.md writes it. Nothing here is proved."""
from collections import namedtuple
from functools import lru_cache

Instruction = namedtuple('Instruction', 'form name rd rs1 rs2 number text')

BRANCHES = {0: 'beq', 1: 'bne', 4: 'blt', 5: 'bge', 6: 'bltu', 7: 'bgeu'}
LOADS = {0: 'lb', 1: 'lh', 2: 'lw', 4: 'lbu', 5: 'lhu'}
STORES = {0: 'sb', 1: 'sh', 2: 'sw'}
IMMEDIATES = {0: 'addi', 2: 'slti', 3: 'sltiu', 4: 'xori', 6: 'ori', 7: 'andi'}
SHIFTS = {(1, 0): 'slli', (5, 0): 'srli', (5, 32): 'srai'}
REGISTERS = {(0, 0): 'add', (1, 0): 'sll', (2, 0): 'slt', (3, 0): 'sltu', (4, 0): 'xor', (5, 0): 'srl', (6, 0): 'or',
             (7, 0): 'and', (0, 32): 'sub', (5, 32): 'sra'}
AMOS = {1: 'amoswap.w', 0: 'amoadd.w', 4: 'amoxor.w', 12: 'amoand.w', 8: 'amoor.w', 16: 'amomin.w', 20: 'amomax.w',
        24: 'amominu.w', 28: 'amomaxu.w'}
SIZES = {'lb': 1, 'lbu': 1, 'sb': 1, 'lh': 2, 'lhu': 2, 'sh': 2}


def signed(value, bits):
    """A number of so many bits, read in two's complement."""
    value &= (1 << bits) - 1
    return value - (1 << bits) if value >> (bits - 1) else value


def accesses(bits):
    return ''.join(letter for place, letter in ((3, 'i'), (2, 'o'), (1, 'r'), (0, 'w')) if bits >> place & 1) or '0'


def of_fence(word, rd, rs1):
    mode, before, after = word >> 28, word >> 24 & 15, word >> 20 & 15
    is_tso = (mode, before, after) == (8, 3, 3)
    if is_tso and rd == rs1 == 0:
        text = 'fence.tso'
    elif mode == 0 and rd == rs1 == 0:
        text = f'fence {accesses(before)}, {accesses(after)}'
    else:
        text = f'.word 0x{word:08x}'
    orders = not is_tso and before & 1 and after >> 1 & 1
    return Instruction('fence', 'fence', 0, 0, 0, int(bool(orders)), text)


def of_atomic(word, rd, rs1, rs2):
    kind, mark = word >> 27, ('', '.rl', '.aq', '.aqrl')[word >> 25 & 3]
    if kind == 2 and rs2 == 0:
        return Instruction('lr', 'lr.w', rd, rs1, 0, 0, f'lr.w{mark} x{rd}, (x{rs1})')
    if kind == 3 or kind in AMOS:
        name = AMOS.get(kind, 'sc.w')
        return Instruction('sc' if kind == 3 else 'amo', name, rd, rs1, rs2, 0, f'{name}{mark} x{rd}, x{rs2}, (x{rs1})')
    return None


def of_jump_or_branch(word, code, funct3, rd, rs1, rs2):
    if code == 0x6f:
        offset = signed(word >> 31 << 20 | (word >> 12 & 255) << 12 | (word >> 20 & 1) << 11 | (word >> 21 & 1023) << 1, 21)
        return Instruction('jal', 'jal', rd, 0, 0, offset, f'jal x{rd}, {offset}')
    if code == 0x67 and funct3 == 0:
        offset = signed(word >> 20, 12)
        return Instruction('jalr', 'jalr', rd, rs1, 0, offset, f'jalr x{rd}, {offset}(x{rs1})')
    if code == 0x63 and funct3 in BRANCHES:
        offset = signed(word >> 31 << 12 | (word >> 7 & 1) << 11 | (word >> 25 & 63) << 5 | (word >> 8 & 15) << 1, 13)
        name = BRANCHES[funct3]
        return Instruction('branch', name, 0, rs1, rs2, offset, f'{name} x{rs1}, x{rs2}, {offset}')
    return None


def of_operation(word, code, funct3, rd, rs1, rs2):
    if code == 0x13 and funct3 in IMMEDIATES:
        number, name = signed(word >> 20, 12), IMMEDIATES[funct3]
    elif code == 0x13 and (funct3, word >> 25) in SHIFTS:
        number, name = rs2, SHIFTS[funct3, word >> 25]
    elif code == 0x33 and (funct3, word >> 25) in REGISTERS:
        name = REGISTERS[funct3, word >> 25]
        return Instruction('op', name, rd, rs1, rs2, 0, f'{name} x{rd}, x{rs1}, x{rs2}')
    else:
        return None
    return Instruction('opimm', name, rd, rs1, 0, number, f'{name} x{rd}, x{rs1}, {number}')


def legal(word):
    code, rd, funct3, rs1, rs2 = word & 127, word >> 7 & 31, word >> 12 & 7, word >> 15 & 31, word >> 20 & 31
    if code in (0x37, 0x17):
        name = 'lui' if code == 0x37 else 'auipc'
        return Instruction(name, name, rd, 0, 0, word & 0xfffff000, f'{name} x{rd}, {word >> 12}')
    if code in (0x6f, 0x67, 0x63):
        return of_jump_or_branch(word, code, funct3, rd, rs1, rs2)
    if code == 0x03 and funct3 in LOADS:
        number, name = signed(word >> 20, 12), LOADS[funct3]
        return Instruction('load', name, rd, rs1, 0, number, f'{name} x{rd}, {number}(x{rs1})')
    if code == 0x23 and funct3 in STORES:
        number, name = signed(word >> 25 << 5 | rd, 12), STORES[funct3]
        return Instruction('store', name, 0, rs1, rs2, number, f'{name} x{rs2}, {number}(x{rs1})')
    if code in (0x13, 0x33):
        return of_operation(word, code, funct3, rd, rs1, rs2)
    if code == 0x0f and funct3 == 0:
        return of_fence(word, rd, rs1)
    if code == 0x2f and funct3 == 2:
        return of_atomic(word, rd, rs1, rs2)
    if word in (0x00000073, 0x00100073):
        name = 'ecall' if word == 0x73 else 'ebreak'
        return Instruction(name, name, 0, 0, 0, 0, name)
    return None


@lru_cache(maxsize=None)
def decode(word):
    """The instruction of a word; of form `illegal` where it spells none."""
    return legal(word) or Instruction('illegal', 'illegal', 0, 0, 0, 0, f'.word 0x{word:08x}')


def size_of(instruction):
    """How many bytes a load, a store or an atomic instruction reads or writes."""
    return SIZES.get(instruction.name, 4)

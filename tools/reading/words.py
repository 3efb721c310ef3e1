"""Words of instructions, and what an instruction does with registers.

An instruction has the operation's number in bits 56 to 63, registers a, b and c in 52 to 55, 48 to 51 and 44 to 47, zero in 32 to 43 and
a number in 0 to 31.
"""
ALL = (1 << 64) - 1

# Name, and what it takes: R a register, N a number. The place in the list is the operation's number.
OPERATIONS = [
    ("halt", ""), ("set", "RN"), ("mov", "RR"),
    ("add", "RRR"), ("sub", "RRR"), ("mul", "RRR"), ("and", "RRR"), ("or", "RRR"), ("xor", "RRR"),
    ("shl", "RRR"), ("shr", "RRR"), ("div", "RRR"), ("rem", "RRR"),
    ("load", "RRN"), ("store", "RRN"), ("jmp", "N"), ("jz", "RN"), ("jnz", "RN"), ("jlt", "RRN"), ("addi", "RRN"), ("call", ""),
]
NUMBER_OF = {name: number for number, (name, _) in enumerate(OPERATIONS)}
HALT, SET, MOV, ADD, SUB, MUL, AND, OR, XOR, SHL, SHR, DIV, REM, LOAD, STORE, JMP, JZ, JNZ, JLT, ADDI, CALL = range(21)

# Why a thread halts.
HALTED, ZERO_DIVISOR, BAD_ADDRESS, NO_INSTRUCTION, MISSING_PAGE = range(5)


def encode(operation, registers=(), number=0):
    """The word of an operation with registers in the order of its operands."""
    word = operation << 56 | number & 0xFFFFFFFF
    for place, register in zip((52, 48, 44), registers):
        word |= register << place
    return word


def decode(word):
    """Operation, a, b, c and number of a word; nothing where it is no instruction."""
    operation = word >> 56
    if operation > CALL or word >> 32 & 0xFFF:
        return None
    return operation, word >> 52 & 15, word >> 48 & 15, word >> 44 & 15, word & 0xFFFFFFFF


def signed(number):
    """A number of 32 bits with its sign."""
    return number - (1 << 32) if number >> 31 else number


def computed(operation, b, c):
    """What an operation on two words gives, and nothing for a division by zero."""
    if operation == ADD:
        return b + c & ALL
    if operation == SUB:
        return b - c & ALL
    if operation == MUL:
        return b * c & ALL
    if operation == AND:
        return b & c
    if operation == OR:
        return b | c
    if operation == XOR:
        return b ^ c
    if operation == SHL:
        return b << c & ALL if c < 64 else 0
    if operation == SHR:
        return b >> c if c < 64 else 0
    if c == 0:
        return None
    return b // c if operation == DIV else b % c


def act(word, registers, counter):
    """What an instruction asks for: ("go", register or None, word, counter), ("halt", code), ("call",), ("load", register, address)
    or ("store", address, word).
    """
    fields = decode(word)
    if fields is None:
        return "halt", NO_INSTRUCTION
    operation, a, b, c, number = fields
    after = counter + 1 & ALL
    if operation == HALT:
        return "halt", HALTED
    if operation == CALL:
        return ("call",)
    if operation == SET:
        return "go", a, number, after
    if operation == MOV:
        return "go", a, registers[b], after
    if ADD <= operation <= REM:
        result = computed(operation, registers[b], registers[c])
        return ("halt", ZERO_DIVISOR) if result is None else ("go", a, result, after)
    if operation == LOAD:
        return "load", a, registers[b] + number & ALL
    if operation == STORE:
        return "store", registers[b] + number & ALL, registers[a]
    if operation == ADDI:
        return "go", a, registers[b] + signed(number) & ALL, after
    if operation == JMP:
        jumps = True
    elif operation == JZ:
        jumps = registers[a] == 0
    elif operation == JNZ:
        jumps = registers[a] != 0
    else:
        jumps = registers[a] < registers[b]
    return "go", None, 0, number if jumps else after

//! Writes images to measure with, in version 2: `OUT mixed FILE.img` is a loop of 100 million
//! instructions, adds, loads, stores, branches and a multiplication; `OUT large FILE.img` ends at once
//! and has the largest stack and the largest code. Four kinds are guarded and have the largest code, to
//! be audited: `guarded` has typical pieces, `stack-checks` and `table-checks` check one register over
//! and over and move it between, and `jumps` only jumps.

fn r(f7: u32, rs2: u32, rs1: u32, f3: u32, rd: u32, op: u32) -> u32 {
    f7 << 25 | rs2 << 20 | rs1 << 15 | f3 << 12 | rd << 7 | op
}

fn i(imm: i32, rs1: u32, f3: u32, rd: u32, op: u32) -> u32 {
    (imm as u32 & 0xfff) << 20 | rs1 << 15 | f3 << 12 | rd << 7 | op
}

fn s(imm: i32, rs2: u32, rs1: u32, f3: u32) -> u32 {
    let imm = imm as u32;
    (imm >> 5 & 127) << 25 | rs2 << 20 | rs1 << 15 | f3 << 12 | (imm & 31) << 7 | 0x23
}

fn b(offset: i32, rs2: u32, rs1: u32, f3: u32) -> u32 {
    let o = offset as u32;
    (o >> 12 & 1) << 31 | (o >> 5 & 63) << 25 | rs2 << 20 | rs1 << 15 | f3 << 12 | (o >> 1 & 15) << 8 | (o >> 11 & 1) << 7 | 0x63
}

fn addi(rd: u32, rs1: u32, imm: i32) -> u32 {
    i(imm, rs1, 0, rd, 0x13)
}

// Twelve instructions a turn, or thirteen where x5 begins anew; x11 counts the turns down.
fn mixed() -> Vec<u32> {
    vec![
        0x0080_05b7,                      // lui x11, 2048: 8,388,608 turns
        i(0, 11, 0, 11, 0x1b),            // addiw x11, x11, 0
        addi(9, 0, 37),                   // addi x9, x0, 37
        addi(13, 2, 2040),                // addi x13, x2, 2040
        addi(12, 2, 1024),                // addi x12, x2, 1024
        addi(5, 2, 0),                    // addi x5, x2, 0
        i(0, 5, 3, 6, 0x03),              // loop: ld x6, 0(x5)
        r(0, 6, 7, 0, 7, 0x33),           // add x7, x7, x6
        r(1, 9, 7, 0, 8, 0x33),           // mul x8, x7, x9
        s(8, 8, 5, 3),                    // sd x8, 8(x5)
        addi(5, 5, 8),                    // addi x5, x5, 8
        b(8, 12, 5, 4),                   // blt x5, x12, 8
        addi(5, 2, 0),                    // addi x5, x2, 0
        s(0, 7, 13, 2),                   // sw x7, 0(x13)
        i(1, 13, 4, 14, 0x03),            // lbu x14, 1(x13)
        r(0, 14, 7, 4, 7, 0x33),          // xor x7, x7, x14
        i(7, 7, 1, 7, 0x13),              // slli x7, x7, 7
        addi(11, 11, -1),                 // addi x11, x11, -1
        b(-48, 0, 11, 1),                 // bne x11, x0, loop
        addi(17, 0, 0),                   // addi x17, x0, 0
        0x73,                             // ecall: end
    ]
}

fn large() -> Vec<u32> {
    let mut code = vec![addi(17, 0, 0), 0x73];
    let filler = mixed();
    while code.len() < MOST_WORDS {
        code.push(filler[code.len() % filler.len()]);
    }
    code
}

const MOST_WORDS: usize = 4_194_304;
const FIRST_TABLE_WORD: u32 = 536_870_912;

fn bltu(rs1: u32, rs2: u32) -> u32 {
    b(0, rs2, rs1, 6)
}

// That x31 is a multiple of 8 of the register, as the last words of a check.
fn is_multiple_of_8(register: u32) -> [u32; 2] {
    [i(7, register, 7, 31, 0x13), b(0, 0, 31, 1)]
}

// That so many bytes, below 2,048, from a register on lie in the stack.
fn stack_check(register: u32, bytes: i32) -> Vec<u32> {
    let mut check = vec![
        bltu(register, 2),
        bltu(3, register),
        0x37 | 31 << 7, // lui x31, 0
        addi(31, 31, bytes),
        r(0, register, 31, 0, 31, 0x33), // add x31, x31, register
        bltu(3, 31),
    ];
    check.extend(is_multiple_of_8(register));
    check
}

// That a register is the address of the table's first word.
fn table_check(register: u32) -> Vec<u32> {
    let mut check = vec![
        bltu(register, 4),
        FIRST_TABLE_WORD | 0x37 | 31 << 7, // lui x31, the address
        addi(31, 31, 0),
        bltu(31, register),
    ];
    check.extend(is_multiple_of_8(register));
    check
}

// 28 words: both checks with their accesses, a moved window, output, and jumps to the words behind.
fn typical() -> Vec<u32> {
    let mut code = stack_check(5, 32);
    code.extend([
        i(0, 5, 3, 6, 0x03), // ld x6, 0(x5)
        s(8, 6, 5, 3),       // sd x6, 8(x5)
        addi(7, 5, 16),      // addi x7, x5, 16
        s(8, 6, 7, 3),       // sd x6, 8(x7)
    ]);
    code.extend(table_check(8));
    code.extend([
        i(0, 8, 3, 9, 0x03),    // ld x9, 0(x8)
        r(0, 9, 6, 0, 10, 0x33), // add x10, x6, x9
        addi(17, 0, 1),
        0x73,                   // ecall: put
        b(8, 0, 10, 0),         // beq x10, x0, 8
        addi(10, 10, -1),
        0x0080_006f,            // jal x0, 8
        addi(0, 0, 0),
        0x17 | 31 << 7,         // auipc x31, 0
        i(8, 31, 0, 0, 0x67),   // jalr x0, 8(x31)
    ]);
    code
}

// A piece of code so often that the largest code is full, and then the end.
fn filled(piece: Vec<u32>) -> Vec<u32> {
    let mut code = Vec::new();
    while code.len() + piece.len() + 2 <= MOST_WORDS {
        code.extend(&piece);
    }
    while code.len() + 2 < MOST_WORDS {
        code.push(addi(0, 0, 0));
    }
    code.extend([addi(17, 0, 0), 0x73]);
    code
}

fn moved(mut check: Vec<u32>) -> Vec<u32> {
    check.push(addi(5, 5, 8));
    check
}

fn main() {
    let mut args = std::env::args().skip(1);
    let kind = args.next().unwrap_or_default();
    let name = args.next().expect("a name of a file");
    let (stack_words, table_words, code) = match kind.as_str() {
        "mixed" => (131_072u32, 0u32, mixed()),
        "large" => (67_108_864, 0, large()),
        "guarded" => (1_024, 1, filled(typical())),
        "stack-checks" => (1_024, 1, filled(moved(stack_check(5, 32)))),
        "table-checks" => (1_024, 1, filled(moved(table_check(5)))),
        "jumps" => (1_024, 1, filled(vec![0x0080_006f, b(-4, 0, 0, 0)])), // jal x0, 8; beq x0, x0, -4
        _ => panic!("mixed, large, guarded, stack-checks, table-checks or jumps"),
    };
    let mut bytes = b"FORSYF64".to_vec();
    for n in [2, stack_words, code.len() as u32, table_words, 0, 0].iter().chain(&code) {
        bytes.extend(n.to_le_bytes());
    }
    bytes.resize(bytes.len() + 8 * table_words as usize, 0);
    std::fs::write(name, bytes).expect("the file");
}

//! Nothing is divided for a node of a sheet file. In the archive's code no innermost loop of the
//! reader, of the writer or of the table check that a write makes has an instruction that divides, or
//! one that multiplies, as a division by a constant would; reader and writer as a whole have one, for
//! the count of blocks; and a block's sums, weighted though one of them is, have none.
//!
//! A node on the screen is judged without a division too, by two multiplications of floats, and
//! nothing is called for it and nothing put on the stack. A small tree is written without a call or
//! a division.

use reference::run::say;
use std::collections::BTreeMap;
use std::process::Command;

/// An instruction: its address, its name and operands, the address that a jump leads to, and
/// whether the linker puts something from outside the function into it.
struct Instruction {
    address: u64,
    name: String,
    operands: String,
    leads_to: Option<u64>,
    linked: bool,
}

impl Instruction {
    /// From a line such as `  4f:   jne    20 <name+0x20>`.
    fn read(line: &str) -> Option<Self> {
        let (address, rest) = line.trim_start().split_once(':')?;
        let mut words = rest.split_whitespace();
        let name = words.next()?.to_string();
        let operands: Vec<&str> = words.collect();
        let leads_to = operands
            .first()
            .filter(|_| name.starts_with('j'))
            .and_then(|target| u64::from_str_radix(target, 16).ok());
        Some(Instruction {
            address: u64::from_str_radix(address, 16).ok()?,
            name,
            operands: operands.join(" "),
            leads_to,
            linked: false,
        })
    }

    fn divides_or_multiplies(&self) -> bool {
        ["div", "idiv", "mul", "imul", "pmul", "pmadd"]
            .iter()
            .any(|start| self.name.starts_with(start))
    }

    /// A call, or a jump that does not lead to another instruction of this code.
    fn leaves(&self, code: &[Instruction]) -> bool {
        let within = code.iter().any(|one| self.leads_to == Some(one.address));
        let jumps_out = self.name.starts_with('j') && (self.linked || !within);
        self.name.starts_with("call") || jumps_out
    }

    fn uses_stack(&self) -> bool {
        self.name.starts_with("push")
            || self.name.starts_with("pop")
            || ["%rsp", "%esp"]
                .iter()
                .any(|pointer| self.operands.contains(pointer))
    }
}

/// The functions of a listing by objdump, each with its instructions.
type Functions = BTreeMap<String, Vec<Instruction>>;

fn functions_of(text: &str) -> Functions {
    let mut functions = Functions::new();
    let mut name = None;
    for line in text.lines() {
        if let Some(head) = line.strip_suffix(">:") {
            name = head.split_once('<').map(|(_, name)| name.to_string());
        } else if let (Some(name), Some(instruction)) = (&name, Instruction::read(line)) {
            let code = functions.entry(name.clone()).or_default();
            match code.last_mut() {
                // The line after an instruction says what the linker puts in.
                Some(last) if instruction.name.starts_with("R_") => last.linked = true,
                _ => code.push(instruction),
            }
        }
    }
    functions
}

/// The functions of the archive.
fn functions() -> Functions {
    let output = Command::new("objdump")
        .args(["--disassemble", "--no-show-raw-insn", "--reloc"])
        .arg(env!("HIWENOKA_ARCHIVE"))
        .output()
        .expect("objdump starts");
    assert!(output.status.success(), "objdump: {}", output.status);
    functions_of(&String::from_utf8(output.stdout).expect("objdump writes text"))
}

/// The places in the code that can come next after the instruction at a place.
fn next_places(code: &[Instruction], place: usize) -> Vec<usize> {
    let one = &code[place];
    let jumped = one.leads_to.filter(|_| !one.linked);
    let led = jumped.and_then(|to| code.iter().position(|next| next.address == to));
    let goes_on = !one.name.starts_with("ret") && one.name != "jmp" && place + 1 < code.len();
    led.into_iter()
        .chain(goes_on.then_some(place + 1))
        .collect()
}

/// Whether the code comes from one place to another: a jump back to a way out, which does not come
/// to the jump again, is no loop.
fn comes_to(code: &[Instruction], start: u64, end: u64) -> bool {
    let mut seen = vec![false; code.len()];
    let mut open: Vec<usize> = code
        .iter()
        .position(|one| one.address == start)
        .into_iter()
        .collect();
    while let Some(place) = open.pop() {
        if code[place].address == end {
            return true;
        }
        if !std::mem::replace(&mut seen[place], true) {
            open.extend(next_places(code, place));
        }
    }
    false
}

/// The stretches of code that are run again: each from an instruction that a jump leads back to, to
/// the jump. Two that overlap, neither within the other, are one loop with two ways back.
fn loops(code: &[Instruction]) -> Vec<(u64, u64)> {
    let mut loops: Vec<(u64, u64)> = Vec::new();
    for jump in code {
        let back = jump.leads_to.filter(|start| *start <= jump.address);
        let Some(mut start) = back.filter(|start| comes_to(code, *start, jump.address)) else {
            continue;
        };
        let mut end = jump.address;
        while let Some(known) = loops.iter().position(|known| {
            let apart = known.1 < start || end < known.0;
            let nested = (known.0 < start && end < known.1) || (start < known.0 && known.1 < end);
            !apart && !nested
        }) {
            let known = loops.swap_remove(known);
            start = start.min(known.0);
            end = end.max(known.1);
        }
        loops.push((start, end));
    }
    loops
}

/// How many innermost loops there are, and how many instructions in them divide or multiply.
fn in_loops(code: &[Instruction]) -> (usize, usize) {
    let loops = loops(code);
    let innermost: Vec<&(u64, u64)> = loops
        .iter()
        .filter(|(start, end)| !loops.iter().any(|inner| *start < inner.0 && inner.1 < *end))
        .collect();
    let within = code
        .iter()
        .filter(|instruction| instruction.divides_or_multiplies())
        .filter(|instruction| {
            innermost
                .iter()
                .any(|(start, end)| (start..=end).contains(&&instruction.address))
        })
        .count();
    (innermost.len(), within)
}

#[test]
fn nothing_is_divided_for_a_node() {
    let functions = functions();
    for (name, least, most) in [
        ("sheet::read_sheet", 3, 1),
        ("hiwenoka_read_sheet", 0, 1),
        ("hiwenoka_write_sheet", 2, 1),
        ("blocks::check::sums_of", 0, 0),
        ("tree::judge::judge", 2, 1),
    ] {
        let code = &functions[name];
        let (loops, within) = in_loops(code);
        let whole = code
            .iter()
            .filter(|one| one.divides_or_multiplies())
            .count();
        say(format_args!(
            "divisions: {name}: {loops} loops, {within} divisions in them, {whole} in the whole"
        ));
        assert!(loops >= least, "{name} has {loops} loops");
        assert_eq!(within, 0, "{name} divides or multiplies in a loop");
        assert!(whole <= most, "{name} divides or multiplies {whole} times");
    }
}

#[test]
fn a_division_in_a_loop_is_seen() {
    // The layout divides once a conflict, and a listing its numbers by 10.
    let functions = functions();
    for name in ["layout::draw", "hiwenoka_list_sheet"] {
        assert!(
            in_loops(&functions[name]).1 > 0,
            "{name} has no division in a loop"
        );
    }
}

/// How many instructions leave the function, divide, multiply, and use the stack.
fn marks(code: &[Instruction]) -> [usize; 4] {
    let count = |is: &dyn Fn(&Instruction) -> bool| code.iter().filter(|one| is(one)).count();
    [
        count(&|one| one.leaves(code)),
        count(&|one| one.name.contains("div")),
        count(&|one| one.name.contains("mul")),
        count(&Instruction::uses_stack),
    ]
}

#[test]
fn a_node_on_the_screen_is_judged_without_a_call_a_division_or_the_stack() {
    let code = &functions()["hiwenoka_on_screen"];
    let [leave, divide, multiply, stack] = marks(code);
    say(format_args!(
        "divisions: hiwenoka_on_screen: {} instructions, {leave} leave it, {divide} divide, \
        {multiply} multiply, {stack} use the stack",
        code.len()
    ));
    assert_eq!([leave, divide, multiply, stack], [0, 0, 2, 0]);
    let products = code.iter().filter(|one| one.name == "mulsd").count();
    assert_eq!(products, 2, "one product for each distance");
    assert!(code.iter().any(|one| one.name == "ret"), "it comes back");
}

#[test]
fn a_small_tree_is_written_without_a_call_or_a_division() {
    let code = &functions()["hiwenoka_small_tree"];
    let [leave, divide, multiply, _] = marks(code);
    say(format_args!(
        "divisions: hiwenoka_small_tree: {} instructions, {leave} leave it, {divide} divide, \
        {multiply} multiply",
        code.len()
    ));
    assert_eq!([leave, divide], [0, 0]);
    assert!(code.iter().any(|one| one.name == "ret"), "it comes back");
}

#[test]
fn a_call_a_division_and_the_stack_are_seen() {
    let functions = functions();
    let [leave, divide, _, stack] = marks(&functions["layout::draw"]);
    let all = leave > 0 && divide > 0 && stack > 0;
    assert!(all, "a layout has them all");
    // The first jump leads to the next instruction only until the linker gives it another end.
    let listing = [
        "0000000000000000 <made>:",
        "   0:\tjmp    5 <made+0x5>",
        "\t\t\t1: R_X86_64_PLT32\tother-0x4",
        "   5:\tjne    7 <made+0x7>",
        "   7:\tdivsd  0x0(%rip),%xmm0        # f <made+0xf>",
        "\t\t\tb: R_X86_64_PC32\t.LCPI0_0-0x4",
        "   f:\tjmp    *%rax",
        "  11:\tje     40 <made+0x40>",
        "  13:\tmovsd  %xmm0,-0x8(%rsp)",
        "  19:\tret",
    ];
    let code = &functions_of(&listing.join("\n"))["made"];
    assert_eq!((code.len(), marks(code)), (7, [3, 1, 0, 1]));
}
